//! Why a question is refused, with the papers' numbers.

/// The fault numbers of document 01, and 36, 37, 50, 51, 54 to 56 and 59 of
/// document 02. `number as u8` is the paper's number.
#[derive(Clone, Copy, Debug, PartialEq, Eq, PartialOrd, Ord)]
#[repr(u8)]
pub enum FaultNumber {
    SizeUnder12 = 1,
    UnknownType = 2,
    ExtensionOutsideArea = 3,
    AbsentNotZero = 4,
    OffsetOutsideArea = 5,
    PadNotZero = 6,
    InlineCountOverCapacity = 7,
    UnusedInlineNotZero = 8,
    NotUtf8 = 9,
    NoSuchSymbol = 10,
    NotZeroOrOne = 11,
    TimeOfDayOver24Hours = 12,
    ItemsPastArea = 13,
    SizeBelowWidth = 14,
    TableRefused = 20,
    ScratchTooShort = 21,
    LengthNotSize = 22,
    MessageTooLong = 23,
    TooDeep = 24,
    GroupNotAllowed = 25,
    ValuePastArea = 26,
    ByteTaken = 27,
    NoSuchFieldOrItem = 28,
    FieldAbsent = 29,
    TableLength = 30,
    TableShape = 31,
    TableNotZero = 32,
    TableOutOfRange = 33,
    TableOrder = 34,
    TableWidthOrDepth = 35,
    TableInheritance = 36,
    TableStoredWidth = 37,
    SheetEnds = 40,
    MarkNotDue = 41,
    SheetTooLong = 42,
    BytesAfterSheet = 43,
    ExtensionOfNone = 44,
    KnownTypeUnopened = 45,
    SheetRoomTooShort = 46,
    OutputTooShort = 47,
    OtherKind = 48,
    StoreDamaged = 50,
    StoreFull = 51,
    NotBlank = 54,
    BarcodeLength = 55,
    LedgerFull = 56,
    NoSuchSettings = 59,
}

/// A refusal: the first fault in the papers' order, and its place, counted
/// from the first byte of the message, table, sheet or store; that of a tape's
/// cut tail from the first byte of the tape.
#[derive(Clone, Copy, Debug, PartialEq, Eq)]
pub struct Fault {
    pub number: FaultNumber,
    pub place: usize,
}

impl Fault {
    pub(crate) fn at(number: FaultNumber, place: usize) -> Fault {
        Fault { number, place }
    }
}

/// Refuses with `number` at `place` unless `met`.
#[inline]
pub(crate) fn require(met: bool, number: FaultNumber, place: usize) -> Result<(), Fault> {
    if met {
        Ok(())
    } else {
        Err(Fault { number, place })
    }
}
