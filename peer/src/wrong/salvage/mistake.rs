//! The mistakes that a salvage could make: what K12 shuts out, the readings that were decided against, and
//! what is easily forgotten.

/// Declares the mistakes: name, description, and where it has to be found (by letter: l in what the program
/// prints or makes of a log, c in calls with lent buffers).
macro_rules! mistakes {
    ($($name:ident: $text:literal, $places:literal;)*) => {
        /// A deliberate mistake in a salvage, its lent entry or the program.
        #[derive(Clone, Copy, PartialEq, Eq, Debug)]
        pub enum SalvageMistake {
            $(#[doc = $text] $name,)*
        }

        impl SalvageMistake {
            /// All mistakes.
            pub const ALL: &'static [SalvageMistake] = &[$(SalvageMistake::$name,)*];

            /// What is wrong, in words.
            pub fn text(self) -> &'static str {
                match self { $(SalvageMistake::$name => $text,)* }
            }

            fn places(self) -> &'static str {
                match self { $(SalvageMistake::$name => $places,)* }
            }
        }
    };
}

mistakes! {
    // A good mark.
    FirstByteUntested: "a mark's first byte isn't tested", "lc";
    SecondByteUntested: "a mark's second byte isn't tested", "lc";
    // A known kind.
    KindZeroKept: "kind 0 is kept", "lc";
    KindSevenKept: "kind 7 is kept", "lc";
    EndDropped: "kind 4 isn't known", "lc";
    DeliverDropped: "kind 6, which has no body, isn't kept", "lc";
    // A full body.
    ReadShort: "the body of kind 1 is a byte shorter", "lc";
    ReadLong: "the body of kind 1 is a byte longer", "lc";
    WriteShort: "the body of kind 2 is a byte shorter", "lc";
    WriteLong: "the body of kind 2 is a byte longer", "lc";
    WireShort: "the body of kind 3 is a byte shorter", "lc";
    WireLong: "the body of kind 3 is a byte longer", "lc";
    EndShort: "the body of kind 4 is a byte shorter", "lc";
    EndLong: "the body of kind 4 is a byte longer", "lc";
    AdvanceShort: "the body of kind 5 is a byte shorter", "lc";
    AdvanceLong: "the body of kind 5 is a byte longer", "lc";
    DeliverLong: "the body of kind 6 is a byte longer", "lc";
    CutKept: "a record that is cut short is kept", "lc";
    CutByOneKept: "a body may lack its last byte", "lc";
    LastDropped: "a record that ends where the log ends isn't kept", "lc";
    LastStepDropped: "the last three bytes aren't looked at", "lc";
    // What a call would answer doesn't matter.
    Refused1Dropped: "a record that is refused with 1 isn't kept", "lc";
    Refused2Dropped: "a record that is refused with 2 isn't kept", "lc";
    Refused3Dropped: "a record that is refused with 3 isn't kept", "lc";
    Refused4Dropped: "a record that is refused with 4 isn't kept", "lc";
    // Otherwise skip one byte.
    SkipTwo: "two bytes are skipped at a time", "lc";
    SkipThree: "three bytes are skipped at a time", "lc";
    SkipHalfMark: "a mark's first byte skips the one behind it too", "lc";
    SkipMarkAndKind: "a mark and its kind are skipped as a whole", "lc";
    SkipRecord: "a bad mark skips the length that its kind says", "lc";
    SkipUnknown: "an unknown kind skips the longest record's length", "lc";
    SkipCut: "a record that is cut short skips all the rest", "lc";
    NextMarkKept: "behind damage the next mark is a record, whatever it is", "lc";
    StopsAtDamage: "the rest is skipped from the first damage on", "lc";
    StopsSilently: "it ends at the first damage", "lc";
    IslandDropped: "a record between two stretches is taken for damage", "lc";
    // From the left, and go on after it.
    FromTheRight: "the records are chosen from the right", "lc";
    OverlapKept: "a record that starts in a kept one is kept too", "lc";
    NextInBody: "it goes on in a kept record's body", "lc";
    // Copies the kept records.
    MarkDropped: "the records are copied without their marks", "lc";
    DamageCopied: "the whole log is copied", "lc";
    SkippedZeroed: "the skipped bytes are copied as zeros", "lc";
    // Every skipped stretch, as long as it runs.
    LinePerByte: "every skipped byte is a stretch", "lc";
    CutAtMark: "a stretch ends before a mark", "lc";
    CutBehindMark: "a stretch ends behind a mark with an unknown kind", "lc";
    CutBehindByte: "a stretch ends behind the first byte of a mark", "lc";
    CutAtByte: "a stretch has at most 255 bytes", "lc";
    OneByteUnlisted: "a stretch of one byte isn't listed", "lc";
    FirstUnlisted: "a stretch at the start isn't listed", "lc";
    LastUnlisted: "a stretch at the end isn't listed", "lc";
    OneStretch: "all skipped bytes are one stretch", "lc";
    // By offset and length.
    OffsetInOutput: "the offset is that in the kept bytes", "lc";
    OffsetFromOne: "offsets start at 1", "lc";
    FirstAtStart: "the first stretch is listed at 0", "lc";
    OffsetOfEnd: "the offset is the stretch's end", "lc";
    EndForLength: "the end stands in place of the length", "lc";
    LengthFirst: "length and offset are in the other order", "lc";
    OffsetSixteenBits: "offsets have 16 bits", "lc";
    LengthSixteenBits: "lengths have 16 bits", "lc";
    LastFirst: "the stretches are listed from the right", "lc";
    // The answer's numbers.
    RecordsAreBytes: "kept bytes are counted in place of records", "lc";
    BytesAreRecords: "the answer's bytes are its records", "c";
    BytesAreLog: "the answer's bytes are the log's", "c";
    StretchesAreNumbers: "the list's numbers are counted in place of stretches", "c";
    StretchesAreBytes: "skipped bytes are counted in place of stretches", "c";
    // 12 exactly when records or list don't fit.
    RecordsUntested: "records that don't fit are cut, and done", "c";
    ListUntested: "a list that doesn't fit is cut, and done", "c";
    EitherFits: "12 only if neither of the two fits", "c";
    RecordsAtFit: "12 where the records fit exactly", "c";
    ListAtFit: "12 where the list fits exactly", "c";
    RecordsByLog: "12 where a sound log of that length wouldn't fit", "c";
    ListByLog: "12 where the list of a log of that length might not fit", "c";
    ListInStretches: "the list's length is taken for stretches", "c";
    ListInBytes: "the list's length is taken for bytes", "c";
    OddList: "12 for a list of odd length", "c";
    NoRecords: "12 for a buffer of length 0, even if nothing is kept", "c";
    NoList: "12 for a list of length 0, even if nothing is skipped", "c";
    ReplayLimit: "12 for a log that a replay doesn't take", "c";
    ProgramLimit: "12 for a log that the program doesn't take", "c";
    RoomIsShort: "8 in place of 12", "c";
    // Both buffers are then as they came, and the counts 0.
    RecordsPartly: "12 copies the records that fit", "c";
    BytesPartly: "12 copies the bytes that fit", "c";
    ListPartly: "12 writes the part of the list that fits", "c";
    RecordsWritten: "12 for the list writes the records", "c";
    ListWritten: "12 for the records writes the list", "c";
    RecordsCleared: "12 clears the records' buffer", "c";
    ListCleared: "12 clears the list", "c";
    RecordsCounted: "12 says how many records there are", "c";
    BytesCounted: "12 says how many bytes are needed", "c";
    StretchesCounted: "12 says how many stretches there are", "c";
    // Longer buffers keep their rest.
    RecordsRest: "the rest of the records' buffer is cleared", "c";
    ListRest: "the rest of the list is cleared", "c";
    RecordsAtEnd: "the records are written to the buffer's end", "c";
    ListEnded: "a longer list is ended by a 0", "c";
    // The program.
    LimitOfReplay: "more than 65,536 bytes are too long", "l";
    LimitTooLow: "262,144 bytes are too long", "l";
    LimitTooHigh: "262,145 bytes aren't too long", "l";
    TooLongMakes: "too long makes an empty file", "l";
    TooLongCut: "of a log that is too long the start is salvaged", "l";
    SoundNoHeading: "no heading where nothing was skipped", "l";
    NoneNoHeading: "no heading where nothing was kept", "l";
    NoneNotMade: "no file is made where nothing was kept", "l";
    NoneNotCounted: "kept 0 isn't printed", "l";
    KeptFirst: "the kept line stands before the skipped ones", "l";
}

impl SalvageMistake {
    /// It shows in what the program prints or makes.
    pub fn shows_in_logs(self) -> bool {
        self.places().contains('l')
    }

    /// It shows in calls with lent buffers.
    pub fn shows_in_calls(self) -> bool {
        self.places().contains('c')
    }
}
