//! The mistakes that a reader, a writer, a reset with settings or the program `settings_file` could make: what K6
//! shuts out, and the readings that were decided against.

/// Declares the mistakes: name, description, and where it has to be found (by letter: s in what `show` prints, m in
/// what `make` prints and makes, l in a replay with a record, b in resets of lent boards, k in resets of lent mills,
/// w in calls of the writer).
macro_rules! mistakes {
    ($($name:ident: $text:literal, $places:literal;)*) => {
        /// A deliberate mistake with settings.
        #[derive(Clone, Copy, PartialEq, Eq, Debug)]
        pub enum SettingsMistake {
            $(#[doc = $text] $name,)*
        }

        impl SettingsMistake {
            /// All mistakes.
            pub const ALL: &'static [SettingsMistake] = &[$(SettingsMistake::$name,)*];

            /// What is wrong, in words.
            pub fn text(self) -> &'static str {
                match self { $(SettingsMistake::$name => $text,)* }
            }

            /// The letters of the places where it has to be found.
            pub fn places(self) -> &'static str {
                match self { $(SettingsMistake::$name => $places,)* }
            }
        }
    };
}

mistakes! {
    // The reader's tests.
    LongerTaken: "a longer record is taken by its first 22 bytes", "slbk";
    ShorterFilled: "a shorter record is filled with zeros", "slbk";
    LengthEightBits: "the record's length has eight bits", "slbk";
    FirstByteUntested: "the mark's first byte isn't tested", "slbk";
    SecondByteUntested: "the mark's second byte isn't tested", "slbk";
    FormUntested: "the form isn't tested", "slbk";
    FormZeroTaken: "form 0 is taken", "sbk";
    FormTwoTaken: "form 2 is taken", "slbk";
    RangeUntested: "the numbers aren't tested", "slbk";
    PeriodZeroTaken: "a period of 0 is taken", "smbk";
    PeriodPastTaken: "a period of 100,000,001 is taken", "smbk";
    PeriodOneRefused: "a period of 1 is refused", "smlbk";
    LongestPeriodRefused: "a period of 100,000,000 is refused", "smlbk";
    MaskZeroTaken: "a mask of 0 is taken", "smbk";
    MaskPastTaken: "a mask of 2^24 is taken", "smbk";
    HighMaskTaken: "bits above 23 of a mask are taken", "smbk";
    LastPinRefused: "a mask with pin 23 is refused", "smlbk";
    FirstMaskTested: "only timer 0's mask is tested", "smbk";
    IdSixteenTaken: "id 16 is taken", "smbk";
    IdFifteenRefused: "id 15 is refused", "smlbk";
    VendorZeroRefused: "vendor 0 is refused", "smlbk";
    VendorTested: "only vendor 0x8086 is taken", "smlbk";
    // Their order.
    MarkBeforeLength: "6 is tested before 8", "sbk";
    FormBeforeLength: "9 is tested before 8", "sbk";
    RangeBeforeLength: "10 is tested before 8", "sbk";
    LengthLast: "8 is tested last", "slbk";
    FormBeforeMark: "9 is tested before 6", "sbk";
    RangeBeforeMark: "10 is tested before 6", "sbk";
    RangeBeforeForm: "10 is tested before 9", "sbk";
    // The fields.
    BigEndianVendor: "the vendor is big-endian", "smlbkw";
    BigEndianPeriod: "the period is big-endian", "smlbkw";
    BigEndianMasks: "the masks are big-endian", "smlbkw";
    MasksReversed: "the masks come in the order 2, 1, 0", "smlbkw";
    IdFirst: "the id comes before the masks", "smlbkw";
    PeriodFirst: "the period comes before the vendor", "smlbkw";
    // What show prints.
    VendorDecimal: "the vendor is printed as a decimal number", "sm";
    PeriodHexadecimal: "the period is printed as a hexadecimal number", "sm";
    MaskSixDigits: "a mask is printed with six digits", "sm";
    MaskLargeDigits: "a mask is printed with large digits", "sm";
    VendorUnpadded: "the vendor is printed without zeros in front", "sm";
    IdHexadecimal: "the id is printed as a hexadecimal number", "sm";
    MasksFromOne: "the masks are numbered from 1", "sm";
    FormLast: "the form is printed last", "sm";
    RefusedShows: "a refused record shows document 01's settings too", "s";
    SettingsRefused: "a refused record prints settings refused", "s";
    // What make does.
    TooLargeCut: "a number that is too large is cut to its field", "m";
    VendorCut: "a vendor that is too large is cut", "m";
    IdCut: "an id that is too large is cut", "m";
    HugeWraps: "a number is taken modulo 2^64", "m";
    ZerosOctal: "zeros in front make a number octal", "m";
    LargeDigitsRefused: "large hexadecimal digits are refused", "m";
    RefusedMakes: "a refused make writes document 01's settings", "m";
    RefusedMakesEmpty: "a refused make leaves an empty file", "m";
    MakeSilent: "make prints nothing", "m";
    MakeOthers: "make prints the numbers, and writes document 01's", "m";
    MakeLonger: "make writes a byte too many", "m";
    // A reset with settings.
    IgnoresRecord: "a reset with settings is document 01's", "bk";
    TestsState: "a reset with settings refuses an ill-formed board with 5", "bk";
    RefusedTestsState: "a refused record on an ill-formed board is 5", "bk";
    RefusedResets: "a refused reset with settings is document 01's", "bk";
    RefusedClears: "a refused reset with settings clears the board", "bk";
    RefusedTakesId: "a refused reset with settings takes the id", "bk";
    KeepsId: "a written id changes the settings: the reset keeps it", "bk";
    KeepsIndex: "a reset with settings keeps the index", "bk";
    KeepsCounter: "a reset with settings keeps the counter", "bk";
    KeepsRunning: "a reset with settings keeps the block enabled", "bk";
    KeepsEntries: "a reset with settings keeps the entries", "bk";
    KeepsOutside: "a reset with settings keeps the outside wires", "bk";
    KeepsTimers: "a reset with settings keeps the timers but for their routes", "bk";
    RouteZero: "a reset with settings routes to pin 0", "bk";
    RouteHighest: "a reset with settings routes to the mask's highest pin", "bk";
    KeepsRoutes: "a reset with settings keeps routes that the mask has", "bk";
    KeepsScreen: "a reset with settings keeps the screen", "k";
    KeepsPin: "a reset with settings keeps the pin, and says running", "k";
    RefusedForgets: "a refused reset with settings leaves no pin", "k";
    TestsScreen: "a reset with settings refuses an ill-formed screen with 5", "k";
    // The writer.
    WriterFillsLonger: "the writer fills a longer buffer from its start", "w";
    WriterFillsEnd: "the writer fills the end of a longer buffer", "w";
    WriterFillsShorter: "the writer fills a shorter buffer as far as it goes", "w";
    WriterLengthFirst: "the writer tests 8 before 10", "w";
    WriterRangeUntested: "the writer writes settings out of range", "w";
    WriterRefusedFills: "a refused writer fills the buffer all the same", "w";
    WriterRefusedUsual: "a refused writer writes document 01's settings", "w";
    WriterFormZero: "the writer writes form 0", "w";
}
