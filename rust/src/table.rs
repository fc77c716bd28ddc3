//! Leap-second tables: the rack's own, and the built-in one.

use crate::sys::{self, always, Image, ENTRY_BYTES};
use crate::{Alike, Dated, Error, LeapEntry, ListError, Result, Tai};
use core::fmt;

/// How many entries a table has room for.
pub const RUNTIME_CAPACITY: usize = 64;

/// A leap-second table of up to 64 entries, which a rack keeps and extends itself.
///
/// It is always valid: thresholds rise, offsets rise by one. It holds its image, 784 bytes that can be stored and read
/// back with [`from_image`](LeapTable::from_image), and no other memory.
///
/// A table may have an [`expiry`](LeapTable::expiry), as one that was read from a file: from then on leap seconds may
/// be missing in it. The calls with `dated` in their names tell whether it has expired ([`Dated`]).
///
/// ```
/// use plaitgate::{CivilDate, Error, LeapEntry, LeapTable};
///
/// let mut table = LeapTable::builtin();
/// assert_eq!((table.len(), table.current_tai_minus_utc()), (19, 37));
///
/// // an offset of 39 cannot follow 37, and the table is as it was
/// let announced = CivilDate::new(2035, 1, 1);
/// assert_eq!(table.try_extend(LeapEntry::of_event(announced, 39)?), Err(Error::NonUnitIncrement));
/// assert_eq!(table, LeapTable::builtin());
///
/// table.try_extend(LeapEntry::of_event(announced, 38)?)?;
/// assert_eq!((table.len(), table.current_tai_minus_utc()), (20, 38));
/// # Ok::<(), plaitgate::Error>(())
/// ```
#[derive(Clone, PartialEq, Eq, Hash)]
pub struct LeapTable {
    pub(crate) image: Image,
}

impl LeapTable {
    /// The table with no entry and no expiry: TAI minus UTC is 19 s throughout.
    #[inline]
    #[must_use]
    pub const fn new() -> Self {
        LeapTable { image: sys::NO_ENTRY }
    }

    /// A copy of the built-in table: 19 entries, up to the leap second at the end of 2016.
    #[must_use]
    pub fn builtin() -> Self {
        let written = sys::table_from_builtin();
        debug_assert!(written.is_ok(), "a place of 784 bytes is not refused");
        written.map_or(Self::new(), |image| LeapTable { image })
    }

    /// The table of a list of entries. Refuses with [`EmptyTable`](crate::Error::EmptyTable) for none, with
    /// [`BufferFull`](crate::Error::BufferFull) for more than 64, then for the first entry that cannot follow the one
    /// before it, as [`try_extend`](LeapTable::try_extend).
    ///
    /// ```
    /// use plaitgate::{Gps, LeapEntry, LeapTable, Utc};
    ///
    /// let table = LeapTable::from_entries(&[LeapEntry::new(100_000_000_000, 25)])?;
    /// assert_eq!(Gps::EPOCH.to_utc_with(&table), Ok(Utc::from_nanos(252_892_794_000_000_000)));
    /// # Ok::<(), plaitgate::Error>(())
    /// ```
    pub fn from_entries(entries: &[LeapEntry]) -> Result<Self> {
        // a list of more than 64 is refused whatever is in it, so that 65 stand for any such
        const MOST: usize = RUNTIME_CAPACITY + 1;
        let mut list = [0; MOST * ENTRY_BYTES];
        let places = list.chunks_exact_mut(ENTRY_BYTES);
        places.zip(entries).for_each(|(place, entry)| place.copy_from_slice(&entry.to_bytes()));
        let image = sys::table_from_entries(&list[..entries.len().min(MOST) * ENTRY_BYTES])?;
        Ok(LeapTable { image })
    }

    /// The table of a leap-seconds.list as the IERS publishes it, from the bytes of the whole file.
    ///
    /// A line that begins with `#@` is the NTP second from which on the file is out of date, the table's
    /// [`expiry`](LeapTable::expiry); any other line that begins with `#` is a comment; a line of spaces and tabs, or
    /// of nothing, is passed over; every other line is the NTP second at which an offset begins, and the offset, and
    /// may end with a comment. The first line with the offset 19 becomes the entry (0, 19), and each line after it an
    /// entry; lines before it are checked and dropped. The file's hash code is in a comment, and is not checked.
    ///
    /// ```
    /// use plaitgate::{LeapEntry, LeapTable, Tai};
    ///
    /// let list = b"#@ 2572000000\n2524521600 19 # 1 Jan 1980\n2571782400 20 # 1 Jul 1981\n";
    /// let table = LeapTable::from_leap_seconds_list(list)?;
    /// assert_eq!(table.entry(0), Some(LeapEntry::new(0, 19)));
    /// assert_eq!(table.entry(1), Some(LeapEntry::new(46_828_820_000_000_000, 20)));
    /// assert_eq!(table.expiry(), Some(Tai::from_nanos(47_046_420_000_000_000)));
    ///
    /// let refused = LeapTable::from_leap_seconds_list(b"# NTP second, TAI minus UTC\n2524521600 19s\n").unwrap_err();
    /// assert_eq!(refused.line(), Some(2));
    /// # Ok::<(), plaitgate::ListError>(())
    /// ```
    ///
    /// Refuses, in this order: with [`BadList`](crate::Error::BadList) where there are more than 65,536 bytes, where a
    /// line is malformed or a second `#@` line, which is named, or where lines have offsets and none is 19; with
    /// [`EmptyTable`](crate::Error::EmptyTable) where no line has an offset; with [`Overflow`](crate::Error::Overflow)
    /// where a threshold or the expiry is no count; with [`BufferFull`](crate::Error::BufferFull) for more than 64
    /// entries; then for the first line that cannot follow the one before it, as
    /// [`try_extend`](LeapTable::try_extend), where lines up to the first 19 are compared by their NTP seconds. A line
    /// that ends with CR is malformed: a file with CR LF is refused at line 1.
    pub fn from_leap_seconds_list(bytes: &[u8]) -> Result<Self, ListError> {
        let image = sys::read_leap_list(bytes)?;
        Ok(LeapTable { image })
    }

    /// gnss-time's name of [`builtin`](LeapTable::builtin).
    #[must_use]
    pub fn from_builtin() -> Self {
        Self::builtin()
    }

    /// gnss-time's name of [`from_entries`](LeapTable::from_entries).
    pub fn from_slice(entries: &[LeapEntry]) -> Result<Self> {
        Self::from_entries(entries)
    }

    /// The table in an image. Refuses with [`BadTable`](crate::Error::BadTable) where the bytes hold no valid one.
    /// Bytes of any number are taken by `LeapTable::try_from`, which refuses another number than 784 alike.
    ///
    /// ```
    /// use plaitgate::{Error, LeapTable};
    ///
    /// let mut image = *LeapTable::builtin().as_image();
    /// assert_eq!(LeapTable::from_image(image), Ok(LeapTable::builtin()));
    /// image[0] = 65;
    /// assert_eq!(LeapTable::from_image(image), Err(Error::BadTable));
    /// ```
    pub fn from_image(image: [u8; 784]) -> Result<Self> {
        sys::table_len(&image)?;
        Ok(LeapTable { image })
    }

    /// The image: bytes 0 to 7 the number of entries, 8 to 519 the thresholds, 520 to 775 the offsets, 776 to 783 the
    /// expiry, each number low byte first.
    #[inline]
    #[must_use]
    pub const fn as_image(&self) -> &[u8; 784] {
        &self.image
    }

    /// Joins an entry at the end; a table with no entry takes any. Refuses with
    /// [`BufferFull`](crate::Error::BufferFull) at 64 entries, with
    /// [`NotStrictlyAscending`](crate::Error::NotStrictlyAscending) where the threshold is not above the last, with
    /// [`OffsetOverflow`](crate::Error::OffsetOverflow) where the last offset is 2,147,483,647, and with
    /// [`NonUnitIncrement`](crate::Error::NonUnitIncrement) where the offset is not one more, in this order. On a
    /// refusal the table is as it was. The expiry stays.
    pub fn try_extend(&mut self, entry: LeapEntry) -> Result<()> {
        sys::table_try_extend(&mut self.image, entry.tai_nanos, entry.tai_minus_utc)
    }

    /// The number of entries, 0 to 64.
    #[must_use]
    pub fn len(&self) -> usize {
        // at most 64, so that it fits
        always(sys::table_len(&self.image)) as usize
    }

    /// Whether there is no entry.
    #[must_use]
    pub fn is_empty(&self) -> bool {
        always(sys::table_is_empty(&self.image)) != 0
    }

    /// The entry at a place, from 0 on.
    #[must_use]
    pub fn entry(&self, place: usize) -> Option<LeapEntry> {
        let (found, tai_nanos, tai_minus_utc) = always(sys::table_entry_at(&self.image, place as u64));
        (found != 0).then_some(LeapEntry { tai_nanos, tai_minus_utc })
    }

    /// The entries, from the first on.
    pub fn entries(&self) -> impl Iterator<Item = LeapEntry> + '_ {
        (0..self.len()).map_while(|place| self.entry(place))
    }

    /// The last threshold; none where there are fewer than two entries.
    #[must_use]
    pub fn last_update(&self) -> Option<Tai> {
        let (found, tai) = always(sys::table_last_update(&self.image));
        (found != 0).then_some(Tai::from_nanos(tai))
    }

    /// The TAI count from which on leap seconds may be missing in the table; none where it does not go stale.
    #[must_use]
    pub fn expiry(&self) -> Option<Tai> {
        let (found, tai) = always(sys::table_expiry(&self.image));
        (found != 0).then_some(Tai::from_nanos(tai))
    }

    /// The table with this expiry in place of its own. `None` takes the expiry away, and so does [`Tai::MAX`], which
    /// means none.
    ///
    /// ```
    /// use plaitgate::{LeapTable, Tai};
    ///
    /// let table = LeapTable::builtin().with_expiry(Some(Tai::from_nanos(1_500_000_000_000_000_000)));
    /// assert_eq!(table.expiry(), Some(Tai::from_nanos(1_500_000_000_000_000_000)));
    /// assert_eq!(table.with_expiry(None), LeapTable::builtin());
    /// ```
    #[must_use]
    pub fn with_expiry(mut self, expiry: Option<Tai>) -> Self {
        always(sys::table_set_expiry(&mut self.image, expiry.unwrap_or(Tai::MAX).as_nanos()));
        self
    }

    /// How far this table and a new one convert alike. Asked before the new one is sent to a station that has this one,
    /// it tells which answers there may change.
    ///
    /// ```
    /// use plaitgate::{gps_to_utc, utc_to_gps, Alike, CivilDateTime, LeapEntry, LeapTable};
    ///
    /// // the table of 2015, and the one that also has the leap second at the end of 2016
    /// let new = LeapTable::builtin();
    /// let entries: Vec<LeapEntry> = new.entries().collect();
    /// let old = LeapTable::from_entries(&entries[..18])?;
    ///
    /// let Alike::Before { gps, utc } = old.alike(&new)? else { panic!("the new table extends the old one") };
    /// let new_year = CivilDateTime { year: 2017, month: 1, day: 1, hour: 0, minute: 0, second: 0, nanos: 0 };
    /// assert_eq!(gps.to_civil()?, new_year);
    /// assert_eq!(utc.to_civil(), CivilDateTime { second: 1, ..new_year });
    ///
    /// assert_ne!(gps_to_utc(gps, &old), gps_to_utc(gps, &new));
    /// assert_ne!(utc_to_gps(utc, &old), utc_to_gps(utc, &new));
    /// assert_eq!(new.alike(&new), Ok(Alike::Everywhere));
    /// # Ok::<(), plaitgate::Error>(())
    /// ```
    ///
    /// Before the two counts both tables give the same count or the same refusal: from GPS to UTC, GLONASS and Unix
    /// seconds, and from Galileo and BeiDou to UTC and GLONASS, where the GPS count is before `gps`; from UTC, GLONASS
    /// and Unix seconds to GPS, where the UTC count is before `utc`. From UTC and GLONASS to Galileo and BeiDou they do
    /// so where, in addition, the GPS count that [`to_gps_with`](crate::Utc::to_gps_with) gives is not before the epoch
    /// of the scale. Nothing is said of civil readings, or of [`Dated::stale`]: the expiry does not matter here.
    ///
    /// Refuses with [`Overflow`](crate::Error::Overflow) where one of the two counts does not fit.
    pub fn alike(&self, new: &LeapTable) -> Result<Alike> {
        sys::table_alike(&self.image, &new.image).map(Alike::of)
    }

    /// The last offset, or 19 where there is no entry.
    #[must_use]
    pub fn current_tai_minus_utc(&self) -> i32 {
        always(sys::table_current_tai_minus_utc(&self.image))
    }

    /// The offset in force at a TAI count: that of the last entry whose threshold is not above it, the first offset
    /// before the first threshold, 19 where there is no entry.
    #[must_use]
    pub fn tai_minus_utc_at(&self, tai: Tai) -> i32 {
        self.tai_minus_utc_at_dated(tai).value
    }

    /// As [`tai_minus_utc_at`](LeapTable::tai_minus_utc_at), and whether the table has expired at that count.
    ///
    /// ```
    /// use plaitgate::{Dated, LeapTable, Tai};
    ///
    /// let table = LeapTable::new().with_expiry(Some(Tai::from_nanos(5)));
    /// assert_eq!(table.tai_minus_utc_at_dated(Tai::from_nanos(4)), Dated { value: 19, stale: false });
    /// assert_eq!(table.tai_minus_utc_at_dated(Tai::from_nanos(5)), Dated { value: 19, stale: true });
    /// ```
    #[must_use]
    pub fn tai_minus_utc_at_dated(&self, tai: Tai) -> Dated<i32> {
        Dated::of(always(sys::table_tai_minus_utc_at(&self.image, tai.as_nanos())))
    }
}

/// The table in stored bytes of any number.
///
/// ```
/// use plaitgate::{Error, LeapTable};
///
/// let stored = LeapTable::builtin().as_image().to_vec();
/// assert_eq!(LeapTable::try_from(&stored[..]), Ok(LeapTable::builtin()));
/// assert_eq!(LeapTable::try_from(&stored[..776]), Err(Error::BadTable));
/// ```
impl TryFrom<&[u8]> for LeapTable {
    type Error = Error;

    fn try_from(bytes: &[u8]) -> Result<Self> {
        sys::table_len(bytes)?;
        bytes.try_into().map(|image| LeapTable { image }).map_err(|_| Error::BadTable)
    }
}

impl Default for LeapTable {
    fn default() -> Self {
        Self::new()
    }
}

/// The entries, and before them the expiry, where there is one.
impl fmt::Debug for LeapTable {
    fn fmt(&self, f: &mut fmt::Formatter<'_>) -> fmt::Result {
        if let Some(expiry) = self.expiry() {
            write!(f, "expires {}: ", expiry.as_nanos())?;
        }
        f.debug_list().entries(self.entries()).finish()
    }
}
