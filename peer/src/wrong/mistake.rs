//! The mistakes that a model could make: those that documents 01 and 02 name or shut out, and the
//! readings that were decided against.

/// Declares the mistakes with their descriptions.
macro_rules! mistakes {
    ($($name:ident: $text:literal;)*) => {
        /// A deliberate mistake.
        #[derive(Clone, Copy, PartialEq, Eq, Debug)]
        pub enum Mistake {
            $(#[doc = $text] $name,)*
        }

        impl Mistake {
            /// All mistakes.
            pub const ALL: &'static [Mistake] = &[$(Mistake::$name,)*];

            /// What is wrong, in words.
            pub fn text(self) -> &'static str {
                match self { $(Mistake::$name => $text,)* }
            }
        }
    };
}

mistakes! {
    // Named in the paper, or shut out by it.
    GlobalWait: "one global wait for an end of interrupt";
    AtOrAbove: "fires at or above the comparator";
    MaskingDropsEdge: "masking drops a held edge";
    EndByPin: "an end frees one pin instead of a vector";
    PeriodOnce: "the period is added once for several firings";
    SilentRegisterWrite: "a timer register write makes no edge";
    AlwaysRefuses: "every call is refused";
    DeliversNone: "a delivery step always says none";
    AdvanceNothing: "an advance changes nothing";
    FirstMatchOnly: "a timer fires only at its first match in an advance";
    MadeUpCount: "several firings are counted as ticks over period";
    // Refusals.
    WidthBeforeWindow: "bad width is tested before the unknown window";
    OffsetBeforeWidth: "bad offset is tested before the width";
    ValueBeforeOffset: "a big value is tested before the offset";
    LevelBeforePin: "a bad level is tested before the pin";
    BigValueTaken: "a 4-byte write takes the low half of a big value";
    AlignmentIgnored: "an unaligned timer offset isn't refused";
    WindowEndTaken: "timer offset 0x400 isn't refused";
    DataWindowAtFour: "the data window is at 0x04 too";
    PinTwentyFour: "pin 24 isn't refused";
    LevelTwo: "a wire level above 1 is taken for 1";
    // The controller.
    DeliversHighest: "a delivery step takes the highest pin";
    EdgesCounted: "a second edge is delivered too";
    MaskedEdgeHeld: "an edge on a masked pin is held";
    OtherModeDead: "a pin with another mode holds no edge";
    OtherModeDelivered: "a pin with another mode is delivered";
    StaleAssertion: "the step after a polarity write makes the edge";
    PolarityWriteEdge: "a polarity write makes an edge";
    UnmaskMakesEdge: "unmasking an asserted edge pin makes an edge";
    EdgeWriteMakesEdge: "a write from level to edge makes an edge";
    DeassertClearsIrr: "remote IRR is cleared when the wire falls back";
    MaskIgnored: "a masked pin is delivered";
    LevelWriteKeepsEdge: "a held edge comes back after a level write";
    PolarityDropsEdge: "a polarity write drops a held edge";
    EndDropsEdge: "an end drops a held edge of an entry with its vector";
    EndByOldVector: "an end goes by the vector that was delivered";
    NoIrr: "a level pin is delivered again without an end";
    StatusBitZero: "bit 12 always reads 0";
    StatusBitUnmasked: "bit 12 reads 1 for a masked pin";
    ArbitrationZero: "index 2 reads 0";
    IdEightBits: "the id has eight bits";
    IndexSixBits: "the index has six bits";
    ReservedKept: "bits 31:17 of a low word are kept";
    DestinationFourBits: "the destination has four bits";
    LogicalZero: "a delivery says logical 0";
    // Remote IRR and writes of an entry.
    IrrSurvives: "remote IRR survives every write, as before K4";
    IrrLostUnmasked: "only an unmasked edge write clears remote IRR";
    IrrLostMasked: "only a masked edge write clears remote IRR";
    IrrLostFixedMode: "only an edge write with mode 000 clears remote IRR";
    IrrLostSameVector: "only an edge write with the same vector clears remote IRR";
    IrrLostAsserted: "only an edge write to an asserted pin clears remote IRR";
    IrrKeptByOne: "an edge write with a 1 in bit 14 keeps remote IRR";
    IrrByOldTrigger: "a write to an edge entry clears remote IRR, not one as edge";
    IrrBackWithLevel: "an edge entry hides remote IRR, and a level write shows it";
    FreedEdgeWaits: "an edge write leaves the pin waiting for its end";
    IrrLostOnWrite: "remote IRR is lost by every write";
    IrrLostWithVector: "a level write with another vector clears remote IRR";
    IrrLostOnMasking: "a masked level write clears remote IRR";
    IrrLostByZero: "a level write with a 0 in bit 14 clears remote IRR";
    IrrLostOnHighWrite: "a high-word write clears remote IRR";
    IrrWritable: "bit 14 can be written";
    EdgeSetsIrr: "an edge delivery sets remote IRR";
    EdgeWriteFreesAll: "an edge write clears remote IRR of every entry";
    EdgeWriteEnds: "an edge write is an end with the entry's vector";
    EdgeWriteDropsEdge: "an edge write drops a held edge";
    // Timer registers.
    GlitchingWrite: "a configuration write is several steps";
    SilentEnable: "enabling and disabling the block makes no edge";
    SilentDisable: "disabling the block makes no edge";
    SilentFall: "a configuration write that drops a wire makes no edge";
    SilentRoute: "moving a route makes no edge";
    SilentStatusClear: "clearing a status makes no edge";
    LateInterruptSilent: "turning an interrupt on later makes no edge";
    BitSixHidden: "bit 6 always reads 0";
    BitSixKept: "bit 6 is kept without bit 3";
    BitSixStays: "bit 6 stays after a comparator write";
    BitSixComparatorOnly: "with bit 6 the period isn't written";
    OneShotSetsPeriod: "a one-shot comparator write sets the period too";
    PeriodSetsComparator: "a periodic write always sets the comparator";
    PeriodReads: "a periodic comparator register reads the period";
    NarrowKeepsPeriod: "entering 32-bit mode keeps the whole period";
    NarrowKeepsComparator: "leaving 32-bit mode restores the comparator";
    RouteAboveIgnoresAll: "a route above 23 ignores the whole write";
    RouteAboveKeepsStatus: "a route above 23 keeps the status of an edge timer";
    RouteModulo: "a route above 23 is stored modulo 24";
    EdgeTypeKeepsStatus: "writing edge type keeps the status";
    StatusZeroClears: "writing 0 clears a status";
    InterruptOffClears: "turning the interrupt off clears the status";
    DisableClears: "disabling the block clears the statuses";
    CounterWriteTaken: "a counter write is taken while enabled";
    CounterNeverWritten: "a counter write is never taken";
    EnableResetsCounter: "enabling the block starts the counter at 0";
    EqualWriteFires: "a write that makes them equal fires";
    // Timer registers in halves: refusals.
    HalvesRefused: "a 4-byte access to the timers is refused";
    HalfAnywhere: "a 4-byte access to the timers isn't tested for alignment";
    WholeAtFour: "an 8-byte access to the timers is taken at a multiple of 4";
    WidthZeroTaken: "width 0 is taken at the timers";
    WidthOneTaken: "width 1 is taken at the timers";
    WidthTwoTaken: "width 2 is taken at the timers";
    WidthSixteenTaken: "width 16 is taken at the timers";
    LastHalfRefused: "the half at 0x3FC is refused";
    EndHalfTaken: "the half at 0x400 isn't refused";
    TimerOffsetBeforeWidth: "at the timers a bad offset is tested before the width";
    TimerValueBeforeOffset: "a big half is tested before the timer offset";
    TimerValueBeforeWidth: "a big half is tested before its alignment";
    BigHalfAtReadOnly: "a big half is taken at a read-only offset";
    BigHalfAtUnlisted: "a big half is taken at an unlisted offset";
    BigHalfTaken: "a half write takes the low half of a big value";
    WholeValueRefused: "an 8-byte write of a big value is refused";
    ControllerTakesEight: "an 8-byte access to the controller is taken";
    ControllerAlignment: "alignment is tested at the controller";
    // Timer registers in halves: reads.
    HalfReadsSwapped: "a half read gives the other half";
    HalfReadsWhole: "a half read gives the whole register";
    HighReadsLow: "a high half reads the low half";
    HighReadUnshifted: "a high half is read at its place in the register";
    // Timer registers in halves: writes.
    HalfWritesSwapped: "a half write goes into the other half";
    SilentHalfWrite: "a half write makes no edge";
    GlitchingHalf: "a half write of a configuration is several steps";
    HalfConfigurationZeroes: "a half write of a configuration takes the rest as zeros";
    HalfEnableZeroes: "a high half at 0x014 disables the block";
    HighConfigurationDropsBitSix: "a high half of a configuration clears bit 6";
    HighConfigurationClearsStatus: "a high half of a configuration clears the status";
    StatusHalfFromRegister: "a half write at the status takes the rest from the register";
    HighStatusClears: "a high half write at the status clears the bits that it has";
    CounterHalfTaken: "a half of the counter is taken while enabled";
    CounterHalfZeroes: "a half write of the counter takes the rest as zeros";
    BitSixUntilBoth: "bit 6 stays until both halves came";
    LowHalfClearsBitSix: "only a low half clears bit 6";
    NarrowHighIgnored: "in 32-bit mode a high half is ignored and leaves bit 6";
    BitSixHalfFromComparator: "with bit 6 both numbers take the comparator's other half";
    BitSixHalfZeroes: "with bit 6 the other half of both numbers becomes 0";
    BitSixHalfComparatorOnly: "with bit 6 a half goes into the comparator only";
    BitSixHalfPeriodOnly: "with bit 6 a half goes into the period only";
    HalfZeroesComparator: "a half of a one-shot comparator makes the rest 0";
    HalfZeroesPeriod: "a half of a period makes the rest 0";
    HalfPeriodSetsComparator: "a half of a period sets that half of the comparator too";
    HalfPeriodInComparator: "a half of a period goes into the comparator instead";
    NarrowHighClears: "a high half in 32-bit mode makes the whole comparator 0";
    NarrowHighClearsPeriod: "a high half in 32-bit mode makes the whole period 0";
    NarrowHighStored: "a high half in 32-bit mode is stored";
    // Time.
    RaiseEdgeOnly: "a pulse makes no edge at its drop";
    LevelRiseEdgeActiveLow: "a level timer's rise makes an edge on an active-low pin";
    LevelRiseSilent: "a level timer's rise makes no edge";
    PulseThrough: "a pulse is seen on a high wire";
    PulseWithoutInterrupt: "an edge timer pulses with its interrupt off";
    EdgeSetsStatus: "a firing edge timer sets its status";
    OrderSwapped: "timers fire in the order 2, 1, 0";
    LevelsFirst: "within a tick, level timers fire before edge timers";
    PulsesFirst: "within a tick, edge timers fire before level timers";
    OneFiringPerTick: "only one timer fires in a tick";
    PulseByStart: "a pulse is judged by the wire at the advance's start";
    PulseByEnd: "a pulse is judged by the wire at the advance's end";
    EqualStartFires: "an advance that starts at a match fires";
    ComparatorStuck: "a comparator that wraps never matches again";
    PeriodZeroOnce: "a timer with period 0 fires only once";
    WideComparesNarrow: "a 64-bit timer compares 32 bits";
    OneShotDisarmed: "a one-shot timer fires only once";
    PeriodZeroNever: "a timer with period 0 never fires";
    PeriodZeroAlways: "a timer with period 0 fires at every tick";
    NarrowComparesWide: "a 32-bit timer compares the whole counter";
    NarrowWrapFires: "a 32-bit timer fires at every wrap";
    SilentUncounted: "firings with the interrupt off aren't counted";
    SilentNoStatus: "a level timer without interrupt sets no status";
    ShortAdvance: "an advance takes 31 bits of ticks";
    DisabledCounts: "a disabled block counts ticks";
    // Settings: what is shown of them.
    CapabilityUsual: "the capability register shows document 01's settings";
    VendorUsual: "the vendor reads 0x8086 whatever the settings";
    PeriodUsual: "the period reads 100,000,000 whatever the settings";
    VendorMisplaced: "the vendor stands in bits 15:0";
    CapabilitySwapped: "period and vendor stand in each other's places";
    PeriodSixteenBits: "the period has 16 bits";
    PeriodHalfUsual: "the high half of the capability register is document 01's";
    MaskReadsUsual: "a mask reads 0x00ffffff whatever the settings";
    MaskHalfReadsUsual: "the high half of a configuration reads 0x00ffffff";
    MaskReadsFirst: "every timer reads timer 0's mask";
    MaskWritable: "a mask can be written";
    MaskHalfWritable: "a mask can be written as a high half";
    MaskWrittenHidden: "a written mask isn't shown, but routes go by it";
    IdUsual: "the id starts at 0 whatever the settings";
    IdBySettings: "index 0 reads the settings' id after a write";
    ArbitrationBySettings: "index 2 reads the settings' id after a write";
    // Settings: routes.
    RouteByOldBit: "a route is tested by the old route's bit";
    RouteMaskIgnored: "a route is kept only if it is above 23";
    RouteOutsideIgnoresAll: "a route outside the mask ignores the whole write";
    RouteOutsideKeepsStatus: "a route outside the mask keeps the status of an edge timer";
    RouteOutsideLowest: "a route outside the mask becomes the mask's lowest pin";
    RouteOutsideZero: "a route outside the mask becomes 0";
    RouteByFirstMask: "every route is tested by timer 0's mask";
    RouteByAnyMask: "a route is tested by the masks of all timers";
    RouteBitShifted: "a route is tested by the bit above its own";
    ResetRouteZero: "the reset route is 0 whatever the mask";
    ResetRouteHighest: "the reset route is the mask's highest pin";
    ResetRouteOfFirst: "every reset route is the lowest pin of timer 0's mask";
    ResetRouteHidden: "the reset route reads 0 until one is written";
    // Settings: the program.
    SettingsIgnored: "the settings are ignored";
    SettingsRefusedGoesOn: "a refused record replays with document 01's settings";
    SettingsRefusedAlone: "a refused record prints refused, without settings before it";
    SettingsRefusedReplays: "a refused record is printed, and the log is replayed";
    TooLongBeforeSettings: "too long is tested before the settings";
    // The log.
    StrayByteIsMark: "stray bytes are taken for a wrong mark";
    KindIsShort: "an unknown kind at the log's end is taken for a cut record";
    BadRecordSkipped: "a bad record is skipped";
    PlaceBehindMark: "the place of a bad record is behind its mark";
    EndAfterStop: "the end is printed after a stop";
    RefusalStops: "refusals 1 to 4 stop the log";
    LimitTooLow: "a log of 65,536 bytes is too long";
    LimitTooHigh: "a log of 65,537 bytes isn't too long";
    BigEndianTicks: "ticks are read big-endian";
    // Refusal 5.
    EdgeIrrTaken: "remote IRR on an edge entry isn't refused";
    MaskedEdgeIrrTaken: "remote IRR on a masked edge entry isn't refused";
    HeldEdgeIrrTaken: "remote IRR beside a held edge isn't refused";
    LastEdgeIrrTaken: "remote IRR on an edge entry of pin 23 isn't refused";
    EdgeIrrMended: "remote IRR on an edge entry is cleared, not refused";
    TickPeriodUntested: "a tick period out of range isn't refused";
    VendorUntested: "a vendor of more than 16 bits isn't refused";
    MaskZeroUntested: "a mask of 0 isn't refused";
    MaskAboveUntested: "a mask with bits above 23 isn't refused";
    RouteUntested: "a route outside its mask isn't refused";
    // A reset.
    ResetRefuses: "a reset refuses an ill-formed board with 5";
    ResetMendsNothing: "a reset leaves an ill-formed board as it is";
    ResetKeepsOutside: "a reset keeps the outside wires";
    ResetKeepsEdges: "a reset keeps held edges";
    ResetKeepsRunning: "a reset keeps the counter running";
    ResetKeepsIndex: "a reset keeps the index";
    ResetKeepsId: "a reset keeps the id";
    ResetKeepsIrr: "a reset keeps remote IRR";
    ResetKeepsDestination: "a reset keeps the destinations";
    ResetUnmasks: "a reset leaves the entries unmasked";
    ResetKeepsCounter: "a reset keeps the counter's number";
    ResetKeepsPeriod: "a reset keeps the periods";
    ResetZeroComparator: "a reset sets the comparators to 0";
    ResetKeepsSettings: "a reset without settings keeps those of the board";
    ResetKeepsVendor: "a reset without settings keeps the vendor";
    ResetKeepsTickPeriod: "a reset without settings keeps the tick period";
    ResetKeepsMasks: "a reset without settings keeps the masks";
    ResetKeepsRoutes: "a reset keeps the routes";
}
