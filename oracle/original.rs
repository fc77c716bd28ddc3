//! The crate's side: what its types say in numbers, and its errors as the rules number them.

use crate::call::Outcome;
use crate::number::Number;
use gnss_time::{CivilDate, CivilDateTime, Duration, DurationParts, GnssTimeError, LeapExtendError, Time, TimeScale};

/// An answer of the crate that has an outcome in numbers.
pub trait Answer {
    fn outcome(self) -> Outcome;
}

const OVERFLOW: u32 = 1;
const INVALID_SECONDS: u32 = 2;
const INVALID_NANOS: u32 = 11;
/// What the crate's one error `InvalidInput` is here.
pub const INVALID_INPUT: [u32; 2] = [INVALID_SECONDS, INVALID_NANOS];
/// Given for what the crate has no error for: bytes that hold no table that it would take.
pub const BAD_TABLE: u32 = 8;
/// An error that the rules have no number for. No call of the port gives it, so it shows as a difference.
const UNNUMBERED: u32 = u32::MAX;

/// Which of the two it is: the crate's text begins with the field.
fn invalid_field(text: &str) -> u32 {
    match text.split(' ').next() {
        Some("tow.seconds" | "tod.seconds") => INVALID_SECONDS,
        Some("tow.nanos" | "tod.nanos" | "nanos") => INVALID_NANOS,
        _ => UNNUMBERED,
    }
}

pub fn refusal_of(error: LeapExtendError) -> u32 {
    match error {
        LeapExtendError::NotStrictlyAscending => 3,
        LeapExtendError::NonUnitIncrement => 4,
        LeapExtendError::BufferFull => 5,
        LeapExtendError::EmptyTable => 6,
        LeapExtendError::OffsetOverflow => 7,
        _ => UNNUMBERED,
    }
}

/// An outcome in numbers already.
impl Answer for Outcome {
    fn outcome(self) -> Outcome {
        self
    }
}

impl<A: Answer> Answer for Option<A> {
    fn outcome(self) -> Outcome {
        self.map_or(Err(OVERFLOW), A::outcome)
    }
}

impl<A: Answer> Answer for Result<A, GnssTimeError> {
    fn outcome(self) -> Outcome {
        match self {
            Ok(answer) => answer.outcome(),
            Err(GnssTimeError::Overflow) => Err(OVERFLOW),
            Err(GnssTimeError::InvalidInput(text)) => Err(invalid_field(text)),
            Err(_) => Err(UNNUMBERED),
        }
    }
}

/// An answer of the crate by a table, and the port's yes or no, which is no: the crate's tables have no expiry.
pub fn never_stale(answer: impl Answer) -> Outcome {
    let mut results = answer.outcome()?;
    results.push(0);
    Ok(results)
}

macro_rules! plain_answers {
    ($($number:ty)*) => {$(
        impl Answer for $number {
            fn outcome(self) -> Outcome {
                Ok(vec![self.wide()])
            }
        }
    )*};
}

plain_answers! { u8 u32 u64 i32 i64 }

impl Answer for bool {
    fn outcome(self) -> Outcome {
        u8::from(self).outcome()
    }
}

impl Answer for (u64, u32) {
    fn outcome(self) -> Outcome {
        Ok(vec![self.0.wide(), self.1.wide()])
    }
}

impl<const N: usize> Answer for [u64; N] {
    fn outcome(self) -> Outcome {
        Ok(self.map(u64::wide).to_vec())
    }
}

impl<S: TimeScale> Answer for Time<S> {
    fn outcome(self) -> Outcome {
        self.as_nanos().outcome()
    }
}

impl Answer for Duration {
    fn outcome(self) -> Outcome {
        self.as_nanos().outcome()
    }
}

impl Answer for DurationParts {
    fn outcome(self) -> Outcome {
        (self.seconds, self.nanos).outcome()
    }
}

impl Answer for CivilDate {
    fn outcome(self) -> Outcome {
        Ok(vec![self.year.wide(), self.month.wide(), self.day.wide()])
    }
}

impl Answer for CivilDateTime {
    fn outcome(self) -> Outcome {
        let date = CivilDate::new(self.year, self.month, self.day).outcome()?;
        let time = vec![self.hour.wide(), self.minute.wide(), self.second.wide(), self.nanos.wide()];
        Ok([date, time].concat())
    }
}
