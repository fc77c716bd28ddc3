//! Answers by a table that may have expired.

/// An answer by a table, and whether the table has expired.
///
/// It is stale exactly if the table has an [`expiry`](crate::LeapTable::expiry) and the TAI count that was looked up
/// last is at or past it; for a civil reading and back, the TAI count of the GPS count. The answer is as good as the
/// table: a leap second that was announced after its file was made is missing in it. A rack lights its lamp, fetches a
/// new file, and goes on stamping. The expiry never changes a value, and a refused call tells nothing.
///
/// ```
/// use plaitgate::{Gps, LeapTable, Tai};
///
/// let expiry = Tai::from_nanos(1_500_000_000_000_000_000);
/// let table = LeapTable::builtin().with_expiry(Some(expiry));
/// let at_expiry = Gps::from_tai(expiry)?;
///
/// let stamp = at_expiry.to_utc_dated(&table)?;
/// assert!(stamp.stale);
/// assert_eq!(stamp.value, at_expiry.to_utc()?);
///
/// let before = Gps::from_nanos(at_expiry.as_nanos() - 1);
/// assert!(!before.to_utc_dated(&table)?.stale);
/// # Ok::<(), plaitgate::Error>(())
/// ```
#[derive(Debug, Clone, Copy, PartialEq, Eq, Hash)]
pub struct Dated<T> {
    pub value: T,
    pub stale: bool,
}

impl<T> Dated<T> {
    /// Changes the value with `f`, and keeps whether the table has expired.
    #[inline]
    #[must_use]
    pub fn map<U>(self, f: impl FnOnce(T) -> U) -> Dated<U> {
        Dated { value: f(self.value), stale: self.stale }
    }

    /// The value alone.
    #[inline]
    #[must_use]
    pub fn into_value(self) -> T {
        self.value
    }

    /// The two results of a call by a table.
    #[inline]
    pub(crate) fn of((value, stale): (T, u8)) -> Self {
        Dated { value, stale: stale != 0 }
    }

    /// An answer by a table that has no expiry.
    #[inline]
    pub(crate) fn without_expiry(value: T) -> Self {
        Dated { value, stale: false }
    }
}
