//! The numbers that a call can return, as the table of document 01 and the
//! requests have them.

/// Why a call ended. The discriminant is the published number.
#[derive(Clone, Copy, Debug, PartialEq, Eq)]
#[repr(u64)]
pub enum Number {
    Done = 0,
    Rooms = 1,
    TextBytes = 2,
    FlagLine = 3,
    LongContent = 4,
    TenPlaceholders = 5,
    TemplateMetBefore = 6,
    MalformedCode = 7,
    SectionNotEnded = 8,
    CountPassed = 9,
    LongInput = 11,
    LongBuiltLine = 12,
    OutputFull = 13,
    NestedTooDeep = 14,
    BadExpression = 15,
    NotOneCharacter = 16,
    BadBracket = 17,
    BadSkip = 18,
    MemoryFull = 19,
    Spent = 20,
    MalformedCharacter = 21,
}

impl From<Number> for u64 {
    fn from(number: Number) -> u64 {
        number as u64
    }
}
