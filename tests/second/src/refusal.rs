//! The numbers a caller can get back.

#[derive(Clone, Copy, PartialEq, Eq, Debug)]
pub enum Refusal {
    BadHeader = 1,
    Small = 2,
    BadValue = 3,
    NoRow = 4,
    Full = 5,
    Damaged = 6,
    Gone = 7,
    OutSmall = 8,
    BadList = 9,
    BadFrame = 10,
}

impl Refusal {
    pub fn number(self) -> u32 {
        self as u32
    }

    pub fn name(self) -> &'static str {
        match self {
            Refusal::BadHeader => "BAD_HEADER",
            Refusal::Small => "SMALL",
            Refusal::BadValue => "BAD_VALUE",
            Refusal::NoRow => "NO_ROW",
            Refusal::Full => "FULL",
            Refusal::Damaged => "DAMAGED",
            Refusal::Gone => "GONE",
            Refusal::OutSmall => "OUT_SMALL",
            Refusal::BadList => "BAD_LIST",
            Refusal::BadFrame => "BAD_FRAME",
        }
    }
}
