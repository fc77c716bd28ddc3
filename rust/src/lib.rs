//! GPS, UTC, GLONASS, TAI, Galileo and BeiDou counts into each other, into Unix time, into weeks, days and civil dates,
//! for hosts in Rust. The work is done by Plaitgate's library, every function of which is proved against its contract;
//! this crate gives its calls the names and shapes they have in gnss-time. It computes one thing itself, by `core`'s
//! checked arithmetic: the units and sums of a [`Duration`]. The words of a refusal are its own too.
//!
//! Every call is total: any input gets an answer or a refusal. A refusal is an [`Error`], which has a number, or `None`
//! where gnss-time has it so. A [`ListError`] or a [`CivilError`] holds one, and says what is wrong with the list or the
//! fields. No call panics.
//!
//! ```
//! use plaitgate::{DurationParts, Gps};
//!
//! // the second that was inserted at the end of 2016, and the one after it, have the same UTC count
//! let inserted = Gps::from_week_tow(1930, DurationParts { seconds: 17, nanos: 0 })?;
//! let after = Gps::from_week_tow(1930, DurationParts { seconds: 18, nanos: 0 })?;
//! let utc = inserted.to_utc()?;
//! assert_eq!(after.to_utc()?, utc);
//!
//! // such a count is turned into the first of the two
//! assert_eq!(utc.to_gps()?, inserted);
//!
//! // their civil readings differ: the inserted second is 23:59:60
//! assert_eq!((inserted.to_civil()?.second, after.to_civil()?.second), (60, 0));
//! assert_eq!(after.to_civil()?.to_gps()?, after);
//! # Ok::<(), plaitgate::Error>(())
//! ```
//!
//! A program that uses gnss-time moves over by its imports: [`Time`], [`GnssTimeError`], [`LeapExtendError`] and
//! [`RuntimeLeapSeconds`] are here as other names. docs/MOVING.md has the calls side by side.
//!
//! A table that was read from a file goes stale on the date that the file gives. The calls by a table with `dated` in
//! their names say so, together with the count ([`Dated`]).
//!
//! The library is `libplaitgate.a`. build.rs links the one in the folder that the variable `PLAITGATE_LIB_DIR` names,
//! else the one that Plaitgate's tools make in this repository, anew whenever a source of the library has changed.

#![cfg_attr(not(any(feature = "std", test)), no_std)]
#![warn(missing_debug_implementations, unused_must_use)]
#![deny(unsafe_op_in_unsafe_fn, unsafe_code)]

mod alike;
mod civil;
mod civil_error;
mod convert;
mod dated;
mod duration;
mod entry;
mod epoch;
mod error;
mod glonass;
mod gps;
mod list;
mod provider;
mod readings;
mod scale;
mod shifted;
#[allow(unsafe_code)]
mod sys;
mod table;
mod utc;
mod weeks;

pub use alike::Alike;
pub use civil::{CivilDate, CivilDateTime};
pub use civil_error::CivilError;
pub use convert::{glonass_to_gps, glonass_to_utc, gps_to_glonass, gps_to_utc, utc_to_glonass, utc_to_gps};
pub use convert::{glonass_to_gps_dated, gps_to_glonass_dated, gps_to_utc_dated, utc_to_gps_dated};
pub use dated::Dated;
pub use duration::{Duration, DurationParts};
pub use entry::LeapEntry;
pub use epoch::*;
pub use error::{Error, ListError, Result};
pub use list::LeapList;
pub use provider::{LeapSeconds, LeapSecondsProvider};
pub use scale::{Beidou, Galileo, Glonass, Gps, Tai, Utc};
pub use shifted::{beidou_to_glonass, beidou_to_utc, glonass_to_beidou, utc_to_beidou};
pub use shifted::{beidou_to_glonass_dated, beidou_to_utc_dated, glonass_to_beidou_dated, utc_to_beidou_dated};
pub use shifted::{galileo_to_glonass, galileo_to_utc, glonass_to_galileo, utc_to_galileo};
pub use shifted::{galileo_to_glonass_dated, galileo_to_utc_dated, glonass_to_galileo_dated, utc_to_galileo_dated};
pub use table::{LeapTable, RUNTIME_CAPACITY};

/// gnss-time's name of a count of the scale `S`: `Time<Gps>` is [`Gps`].
///
/// ```
/// use plaitgate::{Gps, Time};
///
/// let gps: Time<Gps> = Time::<Gps>::from_nanos(5);
/// assert_eq!(gps, Gps::from_nanos(5));
/// ```
pub type Time<S> = S;

/// gnss-time's name of [`Error`].
pub type GnssTimeError = Error;

/// gnss-time's name of [`Error`], for tables.
pub type LeapExtendError = Error;

/// gnss-time's name of [`LeapTable`].
pub type RuntimeLeapSeconds = LeapTable;
