//! The numbers an operator sees.

use std::fmt;

/// A refusal: its number and what it means.
#[derive(Clone, Copy, Debug, PartialEq, Eq, Hash)]
#[non_exhaustive]
pub enum Error {
    /// 1: message empty, or a record is cut short.
    CutShort,
    /// 2: first field is not 0, a field number is above 192, or not above the one before.
    FieldOrder,
    /// 3: message type does not start with 01, 02, 04 or 05.
    MessageType,
    /// 4: a listed field has the wrong length or characters.
    FieldForm,
    /// 5: MAC asked over a text that is empty after cleaning.
    EmptyText,
    /// 6: a length or size is outside its range.
    Size,
    /// 7: a character is not a digit, hexadecimal or a password's, where one is asked.
    Character,
    /// 8: a block comes from no permitted PIN, password or VIP number.
    BadBlock,
    /// 9: the two halves of a derivation key agree without the low bit of each byte.
    EqualHalves,
    /// 10: host counter is 0 or has more than ten one bits.
    BadCounter,
    /// 11: terminal state does not hang together.
    BadRecord,
    /// 12: terminal exhausted.
    Exhausted,
    /// 13: lent buffer shorter than the result.
    ShortBuffer,
    /// A number that has no meaning in this version of the crate, such as one that an archive of another version answers.
    Unknown(u32),
}

/// Every refusal that has a meaning, from 1 to 13.
const ALL: [Error; 13] = [
    Error::CutShort,
    Error::FieldOrder,
    Error::MessageType,
    Error::FieldForm,
    Error::EmptyText,
    Error::Size,
    Error::Character,
    Error::BadBlock,
    Error::EqualHalves,
    Error::BadCounter,
    Error::BadRecord,
    Error::Exhausted,
    Error::ShortBuffer,
];

impl Error {
    /// Another name for [`Error::BadBlock`], from when PIN blocks alone were read.
    #[allow(non_upper_case_globals)]
    pub const NoSuchPin: Error = Error::BadBlock;

    /// The refusal of a number; none for 0, which is done.
    ///
    /// ```
    /// use chizuregwo::Error;
    /// assert_eq!(Error::from_number(0), None);
    /// assert_eq!(Error::from_number(6), Some(Error::Size));
    /// assert_eq!(Error::from_number(14), Some(Error::Unknown(14)));
    /// ```
    pub fn from_number(number: u32) -> Option<Error> {
        let place = usize::try_from(number.checked_sub(1)?).ok();
        let known = place.and_then(|place| ALL.get(place)).copied();
        Some(known.unwrap_or(Error::Unknown(number)))
    }

    /// Its number and what that means.
    fn described(self) -> (u32, &'static str) {
        match self {
            Error::CutShort => (1, "message empty, or a record is cut short"),
            Error::FieldOrder => (
                2,
                "first field is not 0, a field number is above 192, or not above the one before",
            ),
            Error::MessageType => (3, "message type does not start with 01, 02, 04 or 05"),
            Error::FieldForm => (4, "a listed field has the wrong length or characters"),
            Error::EmptyText => (5, "MAC asked over a text that is empty after cleaning"),
            Error::Size => (6, "a length or size is outside its range"),
            Error::Character => (
                7,
                "a character is not a digit, hexadecimal or a password's, where one is asked",
            ),
            Error::BadBlock => (
                8,
                "a block comes from no permitted PIN, password or VIP number",
            ),
            Error::EqualHalves => (
                9,
                "the two halves of a derivation key agree without the low bit of each byte",
            ),
            Error::BadCounter => (10, "host counter is 0 or has more than ten one bits"),
            Error::BadRecord => (11, "terminal state does not hang together"),
            Error::Exhausted => (12, "terminal exhausted"),
            Error::ShortBuffer => (13, "lent buffer shorter than the result"),
            Error::Unknown(number) => (number, "a number without a meaning"),
        }
    }

    /// Its number.
    pub fn number(self) -> u32 {
        self.described().0
    }

    /// What its number means: for 1 to 13 the text of [`meaning`](crate::meaning).
    pub fn meaning(self) -> &'static str {
        self.described().1
    }
}

impl fmt::Display for Error {
    fn fmt(&self, f: &mut fmt::Formatter) -> fmt::Result {
        write!(f, "refused {}: {}", self.number(), self.meaning())
    }
}

impl std::error::Error for Error {}
