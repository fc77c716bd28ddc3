//! A list of entries that a rack lends as bytes.

use crate::sys::{self, always};
use crate::{Dated, Result, Tai};

/// A list of entries, of any length, where the rack holds it: 12 bytes for each, 8 of the threshold and 4 of the
/// offset, low byte first. It is checked once, and looked up in place; nothing is copied. It has no expiry.
///
/// ```
/// use plaitgate::{Error, LeapEntry, LeapList, Tai};
///
/// let bytes = [LeapEntry::new(0, 19), LeapEntry::new(46_828_820_000_000_000, 20)].map(LeapEntry::to_bytes).concat();
/// let list = LeapList::try_from_slice(&bytes)?;
/// assert_eq!((list.len(), list.current_tai_minus_utc()), (2, 20));
/// assert_eq!(list.tai_minus_utc_at(Tai::from_nanos(46_828_819_999_999_999)), 19);
///
/// // half an entry is no list, and no entry is no table
/// assert_eq!(LeapList::try_from_slice(&bytes[..6]), Err(Error::BadTable));
/// assert_eq!(LeapList::try_from_slice(&[]), Err(Error::EmptyTable));
/// # Ok::<(), plaitgate::Error>(())
/// ```
#[derive(Debug, Clone, Copy, PartialEq, Eq, Hash)]
pub struct LeapList<'a> {
    entries: &'a [u8],
}

impl<'a> LeapList<'a> {
    /// The list in these bytes. Refuses with [`BadTable`](crate::Error::BadTable) where they are no whole number of
    /// entries, with [`EmptyTable`](crate::Error::EmptyTable) where there are none, then for the first entry that
    /// cannot follow the one before it, as [`LeapTable::try_extend`](crate::LeapTable::try_extend); there is no limit.
    pub fn try_from_slice(entries: &'a [u8]) -> Result<Self> {
        sys::list_check(entries)?;
        Ok(LeapList { entries })
    }

    /// The bytes as they were lent.
    #[must_use]
    pub const fn as_bytes(&self) -> &'a [u8] {
        self.entries
    }

    /// The number of entries, 1 or more.
    #[must_use]
    pub fn len(&self) -> usize {
        // no more than there are bytes, so that it fits
        always(sys::list_len(self.entries)) as usize
    }

    /// Whether there is no entry, which a list that was taken never is.
    #[must_use]
    pub fn is_empty(&self) -> bool {
        always(sys::list_is_empty(self.entries)) != 0
    }

    /// The last threshold; none where there is one entry.
    #[must_use]
    pub fn last_update(&self) -> Option<Tai> {
        let (found, tai) = always(sys::list_last_update(self.entries));
        (found != 0).then_some(Tai::from_nanos(tai))
    }

    /// The last offset.
    #[must_use]
    pub fn current_tai_minus_utc(&self) -> i32 {
        always(sys::list_current_tai_minus_utc(self.entries))
    }

    /// The offset in force at a TAI count: that of the last entry whose threshold is not above it, or the first offset
    /// before the first threshold.
    #[must_use]
    pub fn tai_minus_utc_at(&self, tai: Tai) -> i32 {
        self.tai_minus_utc_at_dated(tai).value
    }

    /// As [`tai_minus_utc_at`](LeapList::tai_minus_utc_at). It is never stale, since the list has no expiry.
    #[must_use]
    pub fn tai_minus_utc_at_dated(&self, tai: Tai) -> Dated<i32> {
        Dated::of(always(sys::list_tai_minus_utc_at(self.entries, tai.as_nanos())))
    }
}
