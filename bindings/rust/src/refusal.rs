//! The numbers a caller can get back.

use std::error::Error;
use std::fmt;

/// Why a call refused. A refusal changes no lent word, fence or byte.
///
/// The lowest number that applies is given; only for Update and Delete, damage that the whole check of a list finds
/// comes after [`Refusal::Gone`].
#[derive(Clone, Copy, PartialEq, Eq, Hash, Debug)]
pub enum Refusal {
    /// 1: a header number is outside its limits.
    BadHeader,
    /// 2: fewer words or fences lent than the index needs.
    Small,
    /// 3: a value that is not below d; for Load a byte that is neither that nor 255; for Pack a byte above 1.
    BadValue,
    /// 4: a row that is not below n, the rows issued.
    NoRow,
    /// 5: an Insert into a full index, a Load of more than R bytes, Pack or Unpack of more than 126,976 rows.
    Full,
    /// 6: the index's memory is not what the calls left there.
    Damaged,
    /// 7: Update or Delete of a deleted row.
    Gone,
    /// 8: the output is shorter than the result.
    OutSmall,
    /// 9: Unpack's list is not the canonical one for so many rows.
    BadList,
    /// A number that the library is not known to give. The proved library gives none; one that is not it may.
    Unknown(u32),
}

impl Refusal {
    /// The number of this refusal.
    pub fn number(self) -> u32 {
        match self {
            Refusal::BadHeader => 1,
            Refusal::Small => 2,
            Refusal::BadValue => 3,
            Refusal::NoRow => 4,
            Refusal::Full => 5,
            Refusal::Damaged => 6,
            Refusal::Gone => 7,
            Refusal::OutSmall => 8,
            Refusal::BadList => 9,
            Refusal::Unknown(number) => number,
        }
    }

    /// The name of this refusal in the table of numbers, as `BAD_HEADER`.
    pub fn name(self) -> &'static str {
        match self {
            Refusal::BadHeader => "BAD_HEADER",
            Refusal::Small => "SMALL",
            Refusal::BadValue => "BAD_VALUE",
            Refusal::NoRow => "NO_ROW",
            Refusal::Full => "FULL",
            Refusal::Damaged => "DAMAGED",
            Refusal::Gone => "GONE",
            Refusal::OutSmall => "OUT_SMALL",
            Refusal::BadList => "BAD_LIST",
            Refusal::Unknown(_) => "UNKNOWN",
        }
    }

    /// What a call answered: nothing where its number is 0, else the refusal of that number.
    pub(crate) fn check(number: u32) -> Result<(), Refusal> {
        Err(match number {
            0 => return Ok(()),
            1 => Refusal::BadHeader,
            2 => Refusal::Small,
            3 => Refusal::BadValue,
            4 => Refusal::NoRow,
            5 => Refusal::Full,
            6 => Refusal::Damaged,
            7 => Refusal::Gone,
            8 => Refusal::OutSmall,
            9 => Refusal::BadList,
            unknown => Refusal::Unknown(unknown),
        })
    }
}

impl fmt::Display for Refusal {
    fn fmt(&self, formatter: &mut fmt::Formatter<'_>) -> fmt::Result {
        write!(formatter, "{} {}", self.number(), self.name())
    }
}

impl Error for Refusal {}

#[cfg(test)]
mod tests {
    use super::Refusal;

    #[test]
    fn each_number_is_its_own_refusal() {
        assert_eq!(Refusal::check(0), Ok(()));
        for number in 1..=1000 {
            let refusal = Refusal::check(number).expect_err("a refusal");
            assert_eq!(refusal.number(), number);
            assert_eq!(matches!(refusal, Refusal::Unknown(_)), number > 9);
        }
    }

    #[test]
    fn shown_by_number_and_name() {
        assert_eq!(Refusal::OutSmall.to_string(), "8 OUT_SMALL");
        assert_eq!(Refusal::Unknown(12).to_string(), "12 UNKNOWN");
    }
}
