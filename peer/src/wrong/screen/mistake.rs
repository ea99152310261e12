//! The mistakes that a pause screen could make: what K2 shuts out, and the readings that were
//! decided against.

/// Declares the mistakes: name, description, and where it has to be found (by letter: l in the
/// program's output for a log, c in calls on lent memory).
macro_rules! mistakes {
    ($($name:ident: $text:literal, $places:literal;)*) => {
        /// A deliberate mistake in the mill, its lent entry or the program.
        #[derive(Clone, Copy, PartialEq, Eq, Debug)]
        pub enum ScreenMistake {
            $(#[doc = $text] $name,)*
        }

        impl ScreenMistake {
            /// All mistakes.
            pub const ALL: &'static [ScreenMistake] = &[$(ScreenMistake::$name,)*];

            /// What is wrong, in words.
            pub fn text(self) -> &'static str {
                match self { $(ScreenMistake::$name => $text,)* }
            }

            fn places(self) -> &'static str {
                match self { $(ScreenMistake::$name => $places,)* }
            }
        }
    };
}

mistakes! {
    // Running becomes asked.
    AskedByWireOnly: "only a wire change is looked at for an edge", "lc";
    AdvanceUnseen: "an advance isn't looked at for an edge", "lc";
    RegisterUnseen: "a timer register write isn't looked at for an edge", "lc";
    MaskedPressAsks: "a press on a masked key asks", "lc";
    LevelAsks: "a level key that waits for its delivery asks", "lc";
    AskedIfEligible: "an edge asks only if it could be delivered", "lc";
    // Asked becomes taken.
    DroppedEdgeUnasks: "asked goes back to running when the edge is dropped", "lc";
    MaskingUnasks: "asked goes back to running when the key is masked", "lc";
    LevelDeliveryIgnored: "a level delivery of the key doesn't take", "lc";
    OtherPinTakes: "any pin's delivery takes", "lc";
    SameVectorTakes: "a delivery with the key's vector takes, whatever the pin", "lc";
    DroppedEdgeTakes: "taken as soon as the edge is gone", "lc";
    RunningDeliveryTakes: "a level delivery takes in running", "lc";
    PausedAtDelivery: "paused at the delivery", "lc";
    VectorAtPress: "the vector is remembered at the press", "l";
    // Taken becomes paused.
    EndBeforeDelivery: "an end in asked pauses", "lc";
    AnyEndPauses: "paused at an end with another vector", "lc";
    PresentVector: "the vector is looked up at the end", "lc";
    EitherVector: "the remembered and the present vector both pause", "lc";
    SecondDeliveryReplaces: "a second delivery replaces the vector", "lc";
    RewriteReplaces: "a low-word write replaces the vector", "lc";
    FreeingEndOnly: "only an end that frees a pin pauses", "lc";
    NeverPaused: "an end never pauses", "lc";
    // Nothing else changes the word.
    PressUntakes: "a press in taken asks again", "lc";
    PressUnpauses: "a press in paused asks again", "lc";
    DeliveryUnpauses: "a delivery in paused takes again", "lc";
    EndUnpauses: "another end in paused resumes", "lc";
    EdgeWritePauses: "taken becomes paused when an edge write clears remote IRR", "lc";
    EdgeWriteUntakes: "taken becomes running when an edge write clears remote IRR", "lc";
    // A telling.
    TellingKeepsWord: "a telling keeps the old word", "c";
    TellingRuns: "a telling always says running", "c";
    TellingOnce: "a second telling changes nothing", "c";
    TellingInRunning: "a telling changes nothing unless running", "c";
    TriggerBeforePin: "14 is tested before 3", "lc";
    PinModulo: "3 isn't tested: the pin is taken modulo 24", "lc";
    PinEightBits: "the told pin has eight bits", "lc";
    TwentyFourTold: "pin 24 is told, and done", "lc";
    MaskedRefused: "14 is given for a masked entry", "lc";
    TriggerUntested: "14 isn't tested", "c";
    RefusedTellingTells: "a telling refused with 14 changes the pin", "c";
    RefusedTellingForgets: "a refused telling leaves no pin", "c";
    MaskedEdgeUncounted: "an edge held on a masked key isn't counted", "c";
    AssertedAsks: "a telling looks at the wire instead of the held edge", "c";
    // A resume.
    ResumeAlways: "a resume works in every word", "c";
    ResumeInTaken: "a resume works in taken too", "c";
    ResumeRuns: "a resume always says running", "c";
    ResumeNothing: "a resume does nothing", "c";
    ResumeForgets: "a resume leaves no pin", "c";
    ResumeRefused: "a resume in another word is refused", "c";
    VectorLeft: "a telling or a resume leaves the old vector", "c";
    // A reset.
    ResetKeepsScreen: "a reset keeps the screen", "c";
    ResetKeepsPin: "a reset keeps the pin", "c";
    ResetTestsScreen: "a reset refuses an ill-formed screen with 5", "c";
    // Refusal 5.
    ToldUntested: "told above 1 isn't refused", "c";
    UntoldPinUntested: "a pin that wasn't told isn't refused", "c";
    UntoldWordUntested: "a word without a telling isn't refused", "c";
    UntoldVectorUntested: "a vector without a telling isn't refused", "c";
    PinUntested: "a kept pin above 23 isn't refused", "c";
    WordUntested: "a kept word above 3 isn't refused", "c";
    VectorUntested: "a kept vector above 255 isn't refused", "c";
    EarlyVectorUntested: "a vector in running or asked isn't refused", "c";
    RunningEdgeUntested: "running beside a held edge isn't refused", "c";
    BoardUntested: "resume doesn't test the board", "c";
    SettingsUntested: "settings out of range aren't refused by a mill", "c";
    RouteUntested: "a route outside its mask isn't refused by a mill", "c";
    EdgeIrrUntested: "remote IRR on an edge entry isn't refused by a mill", "c";
    PinBeforeState: "3 is tested before 5", "c";
    TriggerBeforeState: "14 is tested before 5", "c";
    // The lent entry's numbers.
    UnknownDone: "an unknown kind is answered 0", "c";
    UnknownBeforeState: "an unknown kind is tested before 5", "c";
    UnknownIsState: "an unknown kind is answered 5", "c";
    KindEightBits: "the kind has eight bits", "c";
    WideEndIgnored: "an end with more than eight bits does nothing", "c";
    WideTicksLargest: "ticks of more than 32 bits are the most that there are", "c";
    // The program.
    WordAfterEach: "the word stands after every record", "l";
    WordBefore: "the word stands before its record's line", "l";
    TellingSilent: "the word after the telling isn't printed", "l";
    TooLongFirst: "too long is tested before the pin", "l";
    PinWraps: "a long pin is taken modulo 2^64", "l";
    ZerosRefused: "leading zeros are refused", "l";
    RefusedGoesOn: "a refused pin replays without a screen", "l";
    PinBeforeSettings: "the pin is tested before the settings", "l";
    TooLongBeforeSettings: "too long is tested before the settings", "l";
    RefusedSettingsGoOn: "a refused record goes on with document 01's settings", "l";
}

impl ScreenMistake {
    /// It shows in the program's output for some log.
    pub fn shows_in_logs(self) -> bool {
        self.places().contains('l')
    }

    /// It shows in calls on lent memory.
    pub fn shows_in_calls(self) -> bool {
        self.places().contains('c')
    }

    /// The clause of "well formed" that isn't tested.
    pub(super) fn missing_clause(self) -> Option<&'static str> {
        Some(match self {
            ScreenMistake::ToldUntested => "told is 0 or 1",
            ScreenMistake::UntoldPinUntested => "not told: the pin is 0",
            ScreenMistake::UntoldWordUntested => "not told: the word is running",
            ScreenMistake::UntoldVectorUntested => "not told: the vector is 0",
            ScreenMistake::PinUntested => "told: the pin is at most 23",
            ScreenMistake::WordUntested => "told: the word is at most 3",
            ScreenMistake::VectorUntested => "told: the vector is at most 255",
            ScreenMistake::EarlyVectorUntested => "told: a vector in taken and paused alone",
            ScreenMistake::RunningEdgeUntested => "running only if the pin holds no edge",
            _ => return None,
        })
    }
}
