//! Why a call was refused.

use core::fmt;
use core::num::NonZeroU64;

/// Makes the enum of the refusals, their numbers and their words out of rows:
/// number, name, when it is given, and what it says to a user.
macro_rules! refusals {
    ($($number:literal $name:ident: $when:literal, $says:literal;)*) => {
        /// Why a call was refused. Each has a number, the same in C, in Rust and in the programs.
        ///
        /// ```
        /// use plaitgate::{Error, Gps};
        ///
        /// let refused = Gps::MAX.to_tai().unwrap_err();
        /// assert_eq!(refused, Error::Overflow);
        /// assert_eq!(refused.number(), 1);
        /// assert_eq!(Error::from(8), Error::BadTable);
        /// ```
        #[derive(Debug, Clone, Copy, PartialEq, Eq, Hash)]
        #[non_exhaustive]
        pub enum Error {
            $(
                #[doc = concat!(stringify!($number), ": ", $when)]
                $name,
            )*
            /// A number that is none of the above, which no call gives.
            Other(u32),
        }

        impl Error {
            /// The number of the refusal.
            #[must_use]
            pub const fn number(self) -> u32 {
                match self {
                    $(Error::$name => $number,)*
                    Error::Other(number) => number,
                }
            }
        }

        impl From<u32> for Error {
            fn from(number: u32) -> Self {
                match number {
                    $($number => Error::$name,)*
                    other => Error::Other(other),
                }
            }
        }

        impl fmt::Display for Error {
            fn fmt(&self, f: &mut fmt::Formatter<'_>) -> fmt::Result {
                match self {
                    $(Error::$name => f.write_str($says),)*
                    Error::Other(number) => write!(f, "refused {number}"),
                }
            }
        }
    };
}

refusals! {
    1 Overflow:
        "the exact result, or a count on the way to it, does not fit its type.",
        "the result, or a count on the way to it, does not fit its type";
    2 InvalidSeconds:
        "the seconds of a week reach 604,800, or those of a day 86,400.",
        "the seconds are out of range: a week has 604,800, a day 86,400";
    3 NotStrictlyAscending:
        "a threshold is not above the one before.",
        "the threshold is not above the one before";
    4 NonUnitIncrement:
        "an offset is not one more than the one before.",
        "the offset is not one more than the one before";
    5 BufferFull:
        "the table has 64 entries already, or a list has more than 64.",
        "the table has no room for another entry";
    6 EmptyTable:
        "a list of no entries to build from.",
        "a table cannot be built from no entries";
    7 OffsetOverflow:
        "the offset before is 2,147,483,647.",
        "the offset before is the largest there is";
    8 BadTable:
        "bytes handed in as a table's image hold no valid table, or those of a list are no whole number of entries.",
        "the bytes hold no valid table";
    9 OffsetRange:
        "the offset used last is below −2,147,483,629.",
        "the offset used last is too low";
    10 BadLine:
        "a program's line breaks its form. No call of this crate gives it.",
        "the line breaks its form";
    11 InvalidNanos:
        "the nanoseconds of a second reach 1,000,000,000.",
        "the nanoseconds are out of range: a second has 1,000,000,000";
    12 BadList:
        "a leap-seconds.list is too long, has a malformed line, or no line with the offset 19.",
        "the leap-seconds.list is too long, has a malformed line, or no line with the offset 19";
    13 NotOnDays:
        "a table to read civil times by is not regular, or an entry after its first does not begin a day.",
        "civil times cannot be read by this table: it is not regular, or an entry after its first does not begin a day";
    14 NoInsertedSecond:
        "second 60 is given for a minute that has none.",
        "there is no second 60 at that minute, or it is past the range of counts";
    15 NoSuchMonth:
        "the month of a date is not 1 to 12.",
        "the month is not 1 to 12";
    16 NoSuchDay:
        "the month of that year does not have the day: 31 February, or 29 February of 2023.",
        "the month does not have the day";
    17 NoSuchHour:
        "the hour of a time of day is above 23.",
        "the hour is above 23";
    18 NoSuchMinute:
        "the minute of a time of day is above 59.",
        "the minute is above 59";
    19 NoSuchSecond:
        "the second of a time of day is above 60.",
        "the second is above 60";
}

/// What a call that may refuse gives back.
pub type Result<T, E = Error> = core::result::Result<T, E>;

/// Why a leap-seconds.list was refused: the refusal, and the line where one is malformed.
///
/// ```
/// use plaitgate::{Error, LeapTable};
///
/// let refused = LeapTable::from_leap_seconds_list(b"# two lines\n2524521600, 19\n").unwrap_err();
/// assert_eq!((refused.error(), refused.line()), (Error::BadList, Some(2)));
/// assert_eq!(refused.to_string(), "line 2 is malformed");
///
/// let refused = LeapTable::from_leap_seconds_list(b"# no offset\n").unwrap_err();
/// assert_eq!((refused.error(), refused.line()), (Error::EmptyTable, None));
/// ```
#[derive(Debug, Clone, Copy, PartialEq, Eq, Hash)]
pub struct ListError {
    error: Error,
    line: Option<NonZeroU64>,
}

impl ListError {
    /// The refusal, and the line as the library gives it: 0 where no line is malformed.
    pub(crate) const fn new(error: Error, line: u64) -> Self {
        ListError { error, line: NonZeroU64::new(line) }
    }

    /// The refusal.
    #[must_use]
    pub const fn error(self) -> Error {
        self.error
    }

    /// The number of the first malformed line, from 1 on, with comments and blank lines counted; none where every line
    /// is well formed, and where the list is too long to be read.
    #[must_use]
    pub const fn line(self) -> Option<u64> {
        match self.line {
            Some(line) => Some(line.get()),
            None => None,
        }
    }
}

impl fmt::Display for ListError {
    fn fmt(&self, f: &mut fmt::Formatter<'_>) -> fmt::Result {
        match (self.line, self.error) {
            (Some(line), _) => write!(f, "line {line} is malformed"),
            (None, Error::BadList) => f.write_str("the list has more than 65,536 bytes, or no line with the offset 19"),
            (None, error) => error.fmt(f),
        }
    }
}

/// The refusal, without the line.
impl From<ListError> for Error {
    fn from(refused: ListError) -> Self {
        refused.error
    }
}

#[cfg(feature = "std")]
impl std::error::Error for Error {}

#[cfg(feature = "std")]
impl std::error::Error for ListError {}
