//! Every single fault that document 01 names, and the number it refuses with.

/// The numbers of the calls' replies and refusals.
pub const DONE: u32 = 0;
pub const UNSOUND: u32 = 1;
pub const READING: u32 = 2;
pub const DATAGRAM: u32 = 3;
pub const HEADER: u32 = 4;
pub const QUESTION: u32 = 5;
pub const OPT: u32 = 6;
pub const NO_LLQ: u32 = 7;
pub const REPLY: u32 = 8;
pub const ROSTER: u32 = 9;

macro_rules! faults {
    ($($name:ident)*) => {
        #[derive(Clone, Copy, PartialEq, Eq, Debug)]
        pub enum Fault {
            $($name,)*
        }

        impl Fault {
            pub const ALL: &'static [Fault] = &[$(Fault::$name),*];
        }
    };
}

faults! {
    // Refusal 1: the clock record.
    ClockKind
    // That of a table of the other length.
    ClockKindOfOther
    Place
    // The three highest bytes of eight, which are 0 in every place.
    PlaceHighBytes
    // Refusal 1: the roster's records.
    LineKind
    LineOrder
    UnusedLine
    // Refusals 1 and 9: the roster rules.
    SameListed
    ShareOverLimit
    LimitZero
    LimitOver64
    ShareSum
    // Refusal 1: one slot.
    SlotKind
    FreeSlot
    NumberZero
    LeaseShort
    LeaseLong
    Age
    Name
    NamePadding
    EntryPadding
    // Refusal 1: the slots together.
    SameNumber
    SameHolding
    OverLimit
    Reserve
    // Refusal 3, but for a datagram under 12 bytes.
    Long
    // Refusal 4, but for more than eight questions.
    Qr
    Opcode
    Truncated
    NoQuestion
    Answers
    Authorities
    Additionals
    // Refusal 5, but for questions that run past the end.
    Label
    LongName
    // Refusal 6, but for what runs past the end.
    OptName
    OptType
    OptVersion
    OptTrailing
    // Refusal 7.
    NoOption
    // Refusal 8.
    ReplyOver1472
    // Refusal 9.
    RosterKind
    RosterLength
    RosterOver16
}
