use std::error::Error;
use std::fmt;

/// Why a call was refused. The cases stand in the order in which they are tried; they compare by their numbers.
#[derive(Debug, Clone, Copy, PartialEq, Eq, PartialOrd, Ord, Hash)]
#[non_exhaustive]
#[repr(u32)]
pub enum Refusal {
    /// 14: the profile is outside its limits. Its limit is 0 or over 65,536; or a white byte is over 32; or a void name has
    /// a byte that is no letter, no digit and none of `-`, `_`, `:`, `+` and `/`, or goes on after a zero.
    ProfileNotFine = 14,
    /// 1: the page is over the profile's limit, which is 65,536 bytes in tl's.
    PageTooLong = 1,
    /// 2: the table that was lent to a reading is below 8 words, or has fewer rows than the page has nodes.
    TableTooSmall = 2,
    /// 3: the table that was asked is not sound for the page.
    TableNotSound = 3,
    /// 4: the handle is not below the count, or not a tag's.
    NotATag = 4,
    /// 5: the selector is over 128 bytes.
    SelectorTooLong = 5,
    /// 6: the selector cannot be read.
    SelectorNotRead = 6,
    /// 7: the answer is longer than the buffer that was lent for it.
    BufferTooShort = 7,
}

impl Refusal {
    /// All refusals, in the order of their numbers.
    pub const ALL: [Refusal; 8] = [
        Refusal::PageTooLong,
        Refusal::TableTooSmall,
        Refusal::TableNotSound,
        Refusal::NotATag,
        Refusal::SelectorTooLong,
        Refusal::SelectorNotRead,
        Refusal::BufferTooShort,
        Refusal::ProfileNotFine,
    ];

    /// The refusal's number, as the C interface returns it.
    pub const fn number(self) -> u32 {
        self as u32
    }

    /// The refusal with a number.
    pub fn from_number(number: u32) -> Option<Refusal> {
        Refusal::ALL
            .into_iter()
            .find(|refusal| refusal.number() == number)
    }
}

impl fmt::Display for Refusal {
    fn fmt(&self, f: &mut fmt::Formatter<'_>) -> fmt::Result {
        f.write_str(match self {
            Refusal::ProfileNotFine => "profile outside its limits",
            Refusal::PageTooLong => "page over the profile's limit",
            Refusal::TableTooSmall => "table too small for the page",
            Refusal::TableNotSound => "table not sound for the page",
            Refusal::NotATag => "handle is no tag's",
            Refusal::SelectorTooLong => "selector over 128 bytes",
            Refusal::SelectorNotRead => "selector cannot be read",
            Refusal::BufferTooShort => "answer longer than the buffer",
        })
    }
}

impl Error for Refusal {}

/// What a call's number stands for.
pub(crate) fn outcome(number: u32) -> Result<(), Refusal> {
    if number == 0 {
        return Ok(());
    }
    match Refusal::from_number(number) {
        Some(refusal) => Err(refusal),
        None => {
            panic!("libtl.a refused as {number}, which this version of tl-rattle does not know")
        }
    }
}

#[cfg(test)]
mod tests {
    use super::*;

    #[test]
    fn numbers() {
        let numbers: Vec<u32> = Refusal::ALL.iter().map(|r| r.number()).collect();
        assert_eq!(numbers, [1, 2, 3, 4, 5, 6, 7, 14]);
        assert!(Refusal::ALL.is_sorted());
        for refusal in Refusal::ALL {
            assert_eq!(Refusal::from_number(refusal.number()), Some(refusal));
            assert_eq!(outcome(refusal.number()), Err(refusal));
            assert!(!refusal.to_string().is_empty());
        }
        assert_eq!(Refusal::from_number(0), None);
        assert_eq!(Refusal::from_number(8), None);
        assert_eq!(Refusal::from_number(13), None);
        assert_eq!(Refusal::from_number(15), None);
        assert_eq!(outcome(0), Ok(()));
    }
}
