//! The calls by a table, an entry each. Their first input is the number of a table (images.rs).

use crate::call::{prototype_of, Call, Named, Outcome, Written};
use crate::images::{image, prepared, put_entries, table_in, words, IMAGE_BYTES};
use crate::instants::{self, with_epochs};
use crate::lists::{self, entries_in, prepared_list};
use crate::number::Number;
use crate::original::{never_stale, refusal_of, BAD_TABLE};
use crate::shifted::{from_glonass, from_utc, to_glonass, to_utc};
use gnss_time::{
    glonass_to_gps, gps_to_glonass, gps_to_utc, utc_to_gps, Beidou, Galileo, Glonass, Gps, LeapEntry,
    LeapSecondsProvider, RuntimeLeapSeconds, Time, TimeScale,
};

/// An entry for a call that reads a table: `by_table!("name", (inputs before the image) table (inputs after it) ->
/// (results), what the crate answers, tried on f, recorded on g)`, where the crate's side uses the inputs by name, and
/// the crate's table as `table`. The name may be given in parts. Where the image is no table, 8 is due; where the crate
/// panics, since the offset is out of range, 9.
macro_rules! by_table {
    ($($part:literal)+, ($($before:ident: $first:ty),*) $table:ident ($($after:ident: $then:ty),*)
        -> ($($result:ident: $written:ty),*), $original:expr,
        tried on $trials:path, recorded on $recorded:path) => {{
        use $crate::number::Place;
        extern "C" {
            #[link_name = concat!("plaitgate_", $($part),+)]
            fn exported(
                $($before: $first,)*
                image: *const u8,
                image_bytes: usize,
                $($after: $then,)*
                $($result: *mut $written),*
            ) -> u32;
        }
        fn original(inputs: &[i128]) -> Outcome {
            let [table $(, $before)* $(, $after)*] = *inputs else {
                unreachable!("another number of inputs was drawn")
            };
            $(let $before = <$first>::narrow($before);)*
            $(let $after = <$then>::narrow($after);)*
            let $table = prepared(table).table.as_ref().ok_or(BAD_TABLE)?;
            $crate::original::Answer::outcome($original)
        }
        fn port(inputs: &[i128]) -> Written {
            let [table $(, $before)* $(, $after)*] = *inputs else {
                unreachable!("another number of inputs was drawn")
            };
            $(let $before = <$first>::narrow($before);)*
            $(let $after = <$then>::narrow($after);)*
            $(let mut $result = Place::new();)*
            let image = prepared(table).bytes();
            // SAFETY: the image is so long, and each place outlives the call and has room for its number
            let refusal = unsafe {
                exported($($before,)* image.as_ptr(), image.len(), $($after,)* $($result.address::<$written>()),*)
            };
            Written {
                refusal,
                results: vec![$($result.value::<$written>()),*],
                spilled: false $(|| $result.spilled::<$written>())*,
            }
        }
        const NAME: &str = concat!($($part),+);
        const RESULTS: &[Named] = &[$((stringify!($result), <$written>::KIND)),*];
        Call {
            name: NAME,
            inputs: &[TABLE $(, (stringify!($before), <$first>::KIND))* $(, (stringify!($after), <$then>::KIND))*],
            results: RESULTS,
            prototype: prototype_of(
                NAME,
                &[
                    $((stringify!($before), <$first>::KIND.c_name),)*
                    ("*image", "const uint8_t"),
                    ("image_bytes", "size_t"),
                    $((stringify!($after), <$then>::KIND.c_name),)*
                ],
                RESULTS,
            ),
            panic_is: Some(OFFSET_RANGE),
            trials: $trials,
            recorded: Some($recorded),
            original,
            kept: None,
            port,
        }
    }};
}

pub const TABLE: Named = ("table", u64::KIND);
const OFFSET_RANGE: u32 = 9;

pub fn calls() -> Vec<Call> {
    let mut calls = Vec::from(conversions());
    calls.extend(readers());
    calls.extend(changes());
    calls
}

fn at<S: TimeScale>(count: u64) -> Time<S> {
    Time::from_nanos(count)
}

fn conversions() -> [Call; 6] {
    [
        by_table!("table_gps_to_utc", (gps: u64) table () -> (utc: u64, stale: u8),
            never_stale(gps_to_utc(at(gps), table)),
            tried on instants::gps, recorded on instants::recorded_gps),
        by_table!("table_utc_to_gps", (utc: u64) table () -> (gps: u64, stale: u8),
            never_stale(utc_to_gps(at(utc), table)),
            tried on instants::utc, recorded on instants::recorded_utc),
        by_table!("table_glonass_to_gps", (glonass: u64) table () -> (gps: u64, stale: u8),
            never_stale(glonass_to_gps(at::<Glonass>(glonass), table)),
            tried on instants::glonass, recorded on instants::recorded_glonass),
        by_table!("table_gps_to_glonass", (gps: u64) table () -> (glonass: u64, stale: u8),
            never_stale(gps_to_glonass(at(gps), table)),
            tried on instants::gps, recorded on instants::recorded_gps),
        by_table!("table_gps_from_unix_seconds", (seconds: i64) table () -> (gps: u64, stale: u8),
            never_stale(Time::<Gps>::from_unix_seconds(seconds, table)),
            tried on instants::unix, recorded on instants::recorded_unix),
        by_table!("table_gps_as_unix_seconds", (gps: u64) table () -> (seconds: i64, stale: u8),
            never_stale(at::<Gps>(gps).as_unix_seconds(table)),
            tried on instants::gps, recorded on instants::recorded_gps),
    ]
}

/// A shifted scale to UTC and GLONASS and back. `$tried` and `$recorded` are what its own counts are tried and recorded
/// on.
macro_rules! shifted_calls {
    ($scale:ty, $name:literal, $count:ident, $tried:path, $recorded:path) => {
        [
            by_table!("table_" $name "_to_utc", ($count: u64) table () -> (utc: u64, stale: u8),
                never_stale(to_utc::<$scale>($count, table)), tried on $tried, recorded on $recorded),
            by_table!("table_utc_to_" $name, (utc: u64) table () -> ($count: u64, stale: u8),
                never_stale(from_utc::<$scale>(utc, table)),
                tried on with_epochs::utc, recorded on with_epochs::recorded_utc),
            by_table!("table_" $name "_to_glonass", ($count: u64) table () -> (glonass: u64, stale: u8),
                never_stale(to_glonass::<$scale>($count, table)), tried on $tried, recorded on $recorded),
            by_table!("table_glonass_to_" $name, (glonass: u64) table () -> ($count: u64, stale: u8),
                never_stale(from_glonass::<$scale>(glonass, table)),
                tried on with_epochs::glonass, recorded on with_epochs::recorded_glonass),
        ]
    };
}

pub fn shifted() -> Vec<Call> {
    use with_epochs::{beidou, galileo, recorded_beidou, recorded_galileo};
    let mut calls = Vec::from(shifted_calls!(Galileo, "galileo", galileo, galileo, recorded_galileo));
    calls.extend(shifted_calls!(Beidou, "beidou", beidou, beidou, recorded_beidou));
    calls
}

fn readers() -> [Call; 6] {
    [
        by_table!("table_tai_minus_utc_at", () table (tai: u64) -> (offset: i32, stale: u8),
            never_stale(table.tai_minus_utc_at(at(tai))),
            tried on instants::tai, recorded on instants::recorded_tai),
        by_table!("table_len", () table () -> (len: u64), table.len() as u64,
            tried on instants::tables, recorded on instants::recorded_tables),
        by_table!("table_is_empty", () table () -> (yes: u8), table.is_empty(),
            tried on instants::tables, recorded on instants::recorded_tables),
        by_table!("table_last_update", () table () -> (found: u8, tai: u64),
            found(table.last_update().map(|tai| [tai.as_nanos().wide()])),
            tried on instants::tables, recorded on instants::recorded_tables),
        by_table!("table_current_tai_minus_utc", () table () -> (offset: i32), table.current_tai_minus_utc(),
            tried on instants::tables, recorded on instants::recorded_tables),
        by_table!("table_entry_at", () table (place: u64) -> (found: u8, tai_nanos: u64, tai_minus_utc: i32),
            found(entry_at(table, place).map(|entry| [entry.tai_nanos.wide(), entry.tai_minus_utc.wide()])),
            tried on instants::places, recorded on instants::recorded_places),
    ]
}

/// 1 and what there is, or zeros.
pub fn found<const N: usize>(what: Option<[i128; N]>) -> Outcome {
    let found = i128::from(what.is_some());
    Ok([vec![found], what.unwrap_or([0; N]).to_vec()].concat())
}

fn entry_at(table: &RuntimeLeapSeconds, place: u64) -> Option<LeapEntry> {
    table.entries().get(usize::try_from(place).ok()?).copied()
}

extern "C" {
    fn plaitgate_table_new(image: *mut u8, image_bytes: usize) -> u32;
    fn plaitgate_table_from_builtin(image: *mut u8, image_bytes: usize) -> u32;
    fn plaitgate_table_from_entries(
        entries: *const u8,
        entries_bytes: usize,
        image: *mut u8,
        image_bytes: usize,
    ) -> u32;
    fn plaitgate_table_try_extend(image: *mut u8, image_bytes: usize, tai_nanos: u64, tai_minus_utc: i32) -> u32;
}

/// The image that a call is to change. The bytes of it afterwards are the call's results.
pub const CHANGED: [(&str, &str); 2] = [("*image", "uint8_t"), ("image_bytes", "size_t")];
pub const IMAGE_AFTERWARDS: &[Named] = &[("image_from_its_length_on", u64::KIND)];

/// The calls that change an image. The recorded list has them in a shorter form (questions.rs).
fn changes() -> [Call; 4] {
    let call = Call {
        name: "table_new",
        inputs: &[TABLE],
        results: IMAGE_AFTERWARDS,
        prototype: prototype_of("table_new", &CHANGED, &[]),
        panic_is: None,
        trials: instants::tables,
        recorded: None,
        original: |inputs| written_over(inputs[0], &RuntimeLeapSeconds::new()),
        kept: Some(|inputs| words(prepared(inputs[0]).bytes())),
        port: |inputs| {
            // SAFETY: the image is so long
            lend(inputs[0], |image, bytes| unsafe { plaitgate_table_new(image, bytes) })
        },
    };
    let from_builtin = Call {
        name: "table_from_builtin",
        prototype: prototype_of("table_from_builtin", &CHANGED, &[]),
        original: |inputs| written_over(inputs[0], &RuntimeLeapSeconds::from_builtin()),
        port: |inputs| {
            // SAFETY: the image is so long
            lend(inputs[0], |image, bytes| unsafe { plaitgate_table_from_builtin(image, bytes) })
        },
        ..call
    };
    [call, from_builtin, from_entries(), try_extend()]
}

fn from_entries() -> Call {
    let list: [(&str, &str); 2] = [("*entries", "const uint8_t"), ("entries_bytes", "size_t")];
    Call {
        name: "table_from_entries",
        inputs: &[("list", u64::KIND), TABLE],
        results: IMAGE_AFTERWARDS,
        prototype: prototype_of("table_from_entries", &[list, CHANGED].concat(), &[]),
        panic_is: None,
        trials: lists::over_images,
        recorded: None,
        original: |inputs| {
            let entries = entries_in(prepared_list(inputs[0])).ok_or(BAD_TABLE)?;
            let before = prepared(inputs[1]).bytes();
            if before.len() != IMAGE_BYTES {
                return Err(BAD_TABLE);
            }
            let table = RuntimeLeapSeconds::from_slice(&entries).map_err(refusal_of)?;
            Ok(words(&image(table.entries())))
        },
        kept: Some(|inputs| match prepared(inputs[1]).bytes() {
            before if before.len() == IMAGE_BYTES => words(&image(&[])),
            before => words(before),
        }),
        port: |inputs| {
            let list = prepared_list(inputs[0]);
            lend(inputs[1], |image, bytes| {
                // SAFETY: the list and the image are so long, and apart
                unsafe { plaitgate_table_from_entries(list.as_ptr(), list.len(), image, bytes) }
            })
        },
    }
}

fn try_extend() -> Call {
    let entry: [(&str, &str); 2] = [("tai_nanos", u64::KIND.c_name), ("tai_minus_utc", i32::KIND.c_name)];
    Call {
        name: "table_try_extend",
        inputs: &[TABLE, ("tai_nanos", u64::KIND), ("tai_minus_utc", i32::KIND)],
        results: IMAGE_AFTERWARDS,
        prototype: prototype_of("table_try_extend", &[CHANGED, entry].concat(), &[]),
        panic_is: None,
        trials: instants::extensions,
        recorded: None,
        original: |inputs| {
            let before = prepared(inputs[0]);
            let mut table = table_in(before.bytes()).ok_or(BAD_TABLE)?;
            let entry = LeapEntry::new(u64::narrow(inputs[1]), i32::narrow(inputs[2]));
            table.try_extend(entry).map_err(refusal_of)?;
            let mut after = before.bytes().to_vec();
            put_entries(&mut after, table.entries());
            Ok(words(&after))
        },
        kept: Some(|inputs| words(prepared(inputs[0]).bytes())),
        port: |inputs| {
            let (tai_nanos, tai_minus_utc) = (u64::narrow(inputs[1]), i32::narrow(inputs[2]));
            lend(inputs[0], |image, bytes| {
                // SAFETY: the image is so long
                unsafe { plaitgate_table_try_extend(image, bytes, tai_nanos, tai_minus_utc) }
            })
        },
    }
}

/// What is left where a table is written over an image: its entries, zeros, and no expiry.
fn written_over(number: i128, table: &RuntimeLeapSeconds) -> Outcome {
    if prepared(number).bytes().len() != IMAGE_BYTES {
        return Err(BAD_TABLE);
    }
    Ok(words(&image(table.entries())))
}

/// Lends a copy of an image for change, and sees what is written there, and around it.
fn lend(number: i128, call: impl FnOnce(*mut u8, usize) -> u32) -> Written {
    lend_bytes(prepared(number).bytes(), call)
}

pub fn lend_bytes(image: &[u8], call: impl FnOnce(*mut u8, usize) -> u32) -> Written {
    // the bytes before the image, an odd number of them, and those after it, none of which may change
    const AROUND: [u8; 9] = [0xA5; 9];
    let mut lent = [&AROUND[..], image, &AROUND[..]].concat();
    let refusal = call(lent[AROUND.len()..].as_mut_ptr(), image.len());
    let (before, rest) = lent.split_at(AROUND.len());
    let (image, after) = rest.split_at(image.len());
    Written { refusal, results: words(image), spilled: before != AROUND || after != AROUND }
}
