//! How far two tables convert alike.

use crate::{Gps, Utc};

/// How far two tables convert alike, as [`LeapTable::alike`](crate::LeapTable::alike) tells.
///
/// A table is regular if it begins (0, 19) and each threshold after the first is at least 86,400 s above the one before.
/// The built-in table is regular, and it stays so when entries of later dates are joined to it, as
/// [`LeapEntry::of_event`](crate::LeapEntry::of_event) makes them.
#[derive(Debug, Clone, Copy, PartialEq, Eq, Hash)]
pub enum Alike {
    /// They have the same entries.
    Everywhere,
    /// One table extends the other, and they convert alike before these counts.
    Before {
        /// The first GPS count whose UTC count may differ.
        gps: Gps,
        /// The first UTC count whose GPS count may differ.
        utc: Utc,
    },
    /// Neither table extends the other, and they convert alike before these counts.
    Apart {
        /// The first GPS count whose UTC count may differ.
        gps: Gps,
        /// The first UTC count whose GPS count may differ.
        utc: Utc,
    },
    /// Nothing is said: the tables differ, and one of them is not regular.
    Irregular,
}

impl Alike {
    /// The three results of the library's call. A number that it does not give says nothing.
    pub(crate) fn of((how, gps, utc): (u8, u64, u64)) -> Self {
        let (gps, utc) = (Gps::from_nanos(gps), Utc::from_nanos(utc));
        match how {
            1 => Alike::Everywhere,
            2 => Alike::Before { gps, utc },
            3 => Alike::Apart { gps, utc },
            _ => Alike::Irregular,
        }
    }
}
