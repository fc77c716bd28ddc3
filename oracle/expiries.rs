//! Tables that go stale, which the crate does not have: every call by a table is asked with an expiry, and held to the
//! rules (dated_rules.rs). The count has to be that of the same table without its expiry.

use crate::by_table::{lend_bytes, CHANGED, IMAGE_AFTERWARDS, TABLE};
use crate::call::{prototype_of, Call, Named, Outcome, Written};
use crate::chance::Chance;
use crate::dated_questions;
use crate::dated_rules::{self as rules, Rule};
use crate::images::{prepared, put_entries, table_in, with_expiry, words, NO_EXPIRY};
use crate::inputs::{Group, Trials};
use crate::instants::{self, with_epochs};
use crate::number::{Number, Place};
use crate::original::{refusal_of, BAD_TABLE};
use crate::shifted::Shifted;
use gnss_time::{Beidou, Galileo, LeapEntry};
use std::mem;
use std::sync::Mutex;

const EXPIRY: Named = ("expiry", u64::KIND);
const IMAGE: [(&str, &str); 2] = [("*image", "const uint8_t"), ("image_bytes", "size_t")];
/// Given where a call refuses with the expiry and without it by two numbers: no call is to give it.
const TWO_REFUSALS: u32 = u32::MAX;

/// How often an answer was stale; was not, with an expiry; had none; was refused past an expiry of 0; and was told by
/// the reading that was looked up last where that of the answer would tell otherwise.
static MET: Mutex<[u64; 5]> = Mutex::new([0; 5]);

fn met(which: usize) {
    MET.lock().expect("nothing panics meanwhile")[which] += 1;
}

/// What was met since this was last asked: a sentence, and whether all came.
pub fn all_met() -> (String, bool) {
    let [stale, fresh, none, refused, otherwise] = mem::take(&mut *MET.lock().expect("nothing panics meanwhile"));
    let sentence = format!(
        "answers by a table with an expiry: {stale} stale and {fresh} not, {otherwise} of them other than by the \
         answer's own reading; {none} with the expiry taken away, {refused} refused where the expiry is 0"
    );
    (sentence, [stale, fresh, none, refused, otherwise].iter().all(|times| *times > 0))
}

/// What is due by the rules: the answer and whether it is stale, then the same without the expiry.
fn due(table: i128, expiry: u64, rule: impl Fn(&[LeapEntry]) -> Rule) -> Outcome {
    let entries = prepared(table).table.as_ref().ok_or(BAD_TABLE)?.entries();
    let told = rule(entries).map_err(|refusal| {
        if expiry == 0 {
            met(3);
        }
        refusal
    })?;
    let stale_at = |reading: i128| expiry != NO_EXPIRY && reading >= i128::from(expiry);
    let stale = stale_at(told.last);
    met(match (expiry, stale) {
        (NO_EXPIRY, _) => 2,
        (_, true) => 0,
        (_, false) => 1,
    });
    if stale != stale_at(told.own) {
        met(4);
    }
    Ok(vec![told.value, stale.into(), told.value, 0])
}

/// Inputs of a table and a count, and then an expiry.
fn with_expiries(of_counts: Trials, rule: fn(&[LeapEntry], i128) -> Rule) -> Trials {
    let Trials { groups, draw } = of_counts;
    let in_order =
        move |group: Group| Group::new(group.len(), move |place| with_an_expiry(group.at(place), place, rule));
    Trials {
        groups: groups.into_iter().map(in_order).collect(),
        draw: Box::new(move |chance| {
            let inputs = draw(chance);
            with_an_expiry(inputs, chance.below(1 << 16) as usize, rule)
        }),
    }
}

/// The expiry is at a reading of the answer, one before or one after it, or an end of its type.
pub fn with_an_expiry(inputs: Vec<i128>, which: usize, rule: fn(&[LeapEntry], i128) -> Rule) -> Vec<i128> {
    let [table, count] = inputs[..] else { unreachable!("another number of inputs was drawn") };
    let greatest = i128::from(u64::MAX);
    let mut expiries = vec![0, greatest - 1, greatest];
    if let Ok(told) = rule(prepared(table).entries(), count) {
        expiries.extend([told.last, told.first, told.own].into_iter().flat_map(|at| [at - 1, at, at + 1]));
    }
    expiries.retain(|expiry| (0..=greatest).contains(expiry));
    vec![table, count, expiries[which % expiries.len()]]
}

/// An entry for a call by a table: `dated!("name", (count before the image) (count after it) -> value, rule, tried on
/// f, recorded on g)`, where one of the two counts is there, and the rule is of the entries and the count. The name may
/// be given in parts.
macro_rules! dated {
    ($($part:literal)+, ($($before:ident: $first:ty)?) ($($after:ident: $then:ty)?) -> $value:ident: $written:ty,
        $rule:expr, tried on $trials:path, recorded on $recorded:path) => {{
        extern "C" {
            #[link_name = concat!("plaitgate_", $($part),+)]
            fn exported(
                $($before: $first,)?
                image: *const u8,
                image_bytes: usize,
                $($after: $then,)?
                $value: *mut $written,
                stale: *mut u8,
            ) -> u32;
        }
        const RULE: fn(&[LeapEntry], i128) -> Rule = $rule;
        fn port(inputs: &[i128]) -> Written {
            let [table $(, $before)? $(, $after)?, expiry] = *inputs else {
                unreachable!("another number of inputs was drawn")
            };
            $(let $before = <$first>::narrow($before);)?
            $(let $after = <$then>::narrow($after);)?
            let asked = |expiry: u64| {
                let image = with_expiry(prepared(table).bytes(), expiry);
                let (mut value, mut stale) = (Place::new(), Place::new());
                // SAFETY: the image is so long, and each place outlives the call and has room for its number
                let refusal = unsafe {
                    exported($($before,)? image.as_ptr(), image.len(), $($after,)? value.address(), stale.address())
                };
                let spilled = value.spilled::<$written>() || stale.spilled::<u8>();
                (refusal, vec![value.value::<$written>(), stale.value::<u8>()], spilled)
            };
            let (refusal, told, spilled) = asked(u64::narrow(expiry));
            let (refusal_without, without, spilled_without) = asked(NO_EXPIRY);
            Written {
                refusal: if refusal == refusal_without { refusal } else { TWO_REFUSALS },
                results: [told, without].concat(),
                spilled: spilled || spilled_without,
            }
        }
        const NAME: &str = concat!($($part),+);
        let inputs = [
            [$((stringify!($before), <$first>::KIND.c_name),)?].to_vec(),
            IMAGE.to_vec(),
            [$((stringify!($after), <$then>::KIND.c_name),)?].to_vec(),
        ];
        Call {
            name: NAME,
            inputs: &[
                TABLE,
                $((stringify!($before), <$first>::KIND),)?
                $((stringify!($after), <$then>::KIND),)?
                EXPIRY,
            ],
            results: &[
                (stringify!($value), <$written>::KIND),
                ("stale", u8::KIND),
                ("without_expiry", <$written>::KIND),
                ("stale_without_expiry", u8::KIND),
            ],
            prototype: prototype_of(
                NAME,
                &inputs.concat(),
                &[(stringify!($value), <$written>::KIND), ("stale", u8::KIND)],
            ),
            panic_is: None,
            trials: |inputs| with_expiries($trials(inputs), RULE),
            recorded: Some(|inputs| dated_questions::of_counts($recorded(inputs), RULE)),
            original: |inputs| due(inputs[0], u64::narrow(inputs[2]), |entries| RULE(entries, inputs[1])),
            kept: None,
            port,
        }
    }};
}

/// The nanoseconds by which a scale's counts are fewer than those of GPS.
fn shift<S: Shifted>() -> i128 {
    i128::from(S::BEHIND_GPS_SECONDS) * 1_000_000_000
}

macro_rules! shifted_calls {
    ($scale:ty, $name:literal, $count:ident, $tried:path, $recorded:path) => {
        [
            dated!("table_" $name "_to_utc", ($count: u64) () -> utc: u64,
                |entries, count| rules::shifted_to_utc(entries, shift::<$scale>(), count),
                tried on $tried, recorded on $recorded),
            dated!("table_utc_to_" $name, (utc: u64) () -> $count: u64,
                |entries, utc| rules::utc_to_shifted(entries, shift::<$scale>(), utc),
                tried on with_epochs::utc, recorded on with_epochs::recorded_utc),
            dated!("table_" $name "_to_glonass", ($count: u64) () -> glonass: u64,
                |entries, count| rules::in_glonass(rules::shifted_to_utc(entries, shift::<$scale>(), count)?),
                tried on $tried, recorded on $recorded),
            dated!("table_glonass_to_" $name, (glonass: u64) () -> $count: u64,
                |entries, glonass| {
                    rules::utc_to_shifted(entries, shift::<$scale>(), rules::utc_of_glonass(glonass)?)
                },
                tried on with_epochs::glonass, recorded on with_epochs::recorded_glonass),
        ]
    };
}

/// All calls by a table, asked with an expiry, and the calls that read and write one. The recorded list numbers those
/// that it has by their place here (questions.rs).
pub fn calls() -> Vec<Call> {
    use with_epochs::{beidou, galileo, recorded_beidou, recorded_galileo};
    let mut calls = vec![
        dated!("table_gps_to_utc", (gps: u64) () -> utc: u64, rules::gps_to_utc,
            tried on instants::gps, recorded on instants::recorded_gps),
        dated!("table_utc_to_gps", (utc: u64) () -> gps: u64, rules::utc_to_gps,
            tried on instants::utc, recorded on instants::recorded_utc),
        dated!("table_glonass_to_gps", (glonass: u64) () -> gps: u64,
            |entries, glonass| rules::utc_to_gps(entries, rules::utc_of_glonass(glonass)?),
            tried on instants::glonass, recorded on instants::recorded_glonass),
        dated!("table_gps_to_glonass", (gps: u64) () -> glonass: u64,
            |entries, gps| rules::in_glonass(rules::gps_to_utc(entries, gps)?),
            tried on instants::gps, recorded on instants::recorded_gps),
        dated!("table_gps_from_unix_seconds", (seconds: i64) () -> gps: u64,
            |entries, seconds| rules::utc_to_gps(entries, rules::utc_of_unix(seconds)?),
            tried on instants::unix, recorded on instants::recorded_unix),
        dated!("table_gps_as_unix_seconds", (gps: u64) () -> seconds: i64,
            |entries, gps| rules::in_unix(rules::gps_to_utc(entries, gps)?),
            tried on instants::gps, recorded on instants::recorded_gps),
        dated!("table_tai_minus_utc_at", () (tai: u64) -> offset: i32, rules::lookup,
            tried on instants::tai, recorded on instants::recorded_tai),
    ];
    calls.extend(shifted_calls!(Galileo, "galileo", galileo, galileo, recorded_galileo));
    calls.extend(shifted_calls!(Beidou, "beidou", beidou, beidou, recorded_beidou));
    calls.extend([expiry(), set_expiry(), try_extend()]);
    calls
}

extern "C" {
    fn plaitgate_table_expiry(image: *const u8, image_bytes: usize, found: *mut u8, tai: *mut u64) -> u32;
    fn plaitgate_table_set_expiry(image: *mut u8, image_bytes: usize, tai: u64) -> u32;
    fn plaitgate_table_try_extend(image: *mut u8, image_bytes: usize, tai_nanos: u64, tai_minus_utc: i32) -> u32;
}

/// The image of a table's number and an expiry.
fn image_of(inputs: &[i128]) -> Vec<u8> {
    with_expiry(prepared(inputs[0]).bytes(), u64::narrow(inputs[1]))
}

/// An expiry at an end of its type, or any.
fn draw_expiry(chance: &mut Chance) -> i128 {
    match chance.below(6) {
        0 => 0,
        1 => i128::from(u64::MAX),
        2 => i128::from(u64::MAX) - 1,
        _ => i128::from(chance.next() >> chance.below(64)),
    }
}

/// Each table with expiries at both ends of their type, and then with any: one or two of them in each question.
fn tables_with_expiries(tables: Trials, expiries: usize) -> Trials {
    let Trials { groups, draw } = tables;
    let ends = [0, 1, i128::from(u64::MAX) - 1, i128::from(u64::MAX)];
    let in_order = move |group: Group| {
        let choices = ends.len().pow(expiries as u32);
        Group::new(choices * group.len(), move |place| {
            let chosen = (0..expiries as u32).map(|which| ends[place % choices / ends.len().pow(which) % ends.len()]);
            [group.at(place / choices), chosen.collect()].concat()
        })
    };
    Trials {
        groups: groups.into_iter().map(in_order).collect(),
        draw: Box::new(move |chance| {
            let table = draw(chance);
            [table, (0..expiries).map(|_| draw_expiry(chance)).collect()].concat()
        }),
    }
}

fn expiry() -> Call {
    const RESULTS: &[Named] = &[("found", u8::KIND), ("tai", u64::KIND)];
    Call {
        name: "table_expiry",
        inputs: &[TABLE, EXPIRY],
        results: RESULTS,
        prototype: prototype_of("table_expiry", &IMAGE, RESULTS),
        panic_is: None,
        trials: |inputs| tables_with_expiries(instants::tables(inputs), 1),
        recorded: Some(|inputs| tables_with_expiries(instants::recorded_tables(inputs), 1)),
        original: |inputs| {
            prepared(inputs[0]).table.as_ref().ok_or(BAD_TABLE)?;
            Ok(if inputs[1] == i128::from(NO_EXPIRY) { vec![0, 0] } else { vec![1, inputs[1]] })
        },
        kept: None,
        port: |inputs| {
            let image = image_of(inputs);
            let (mut found, mut tai) = (Place::new(), Place::new());
            // SAFETY: the image is so long, and each place outlives the call and has room for its number
            let refusal =
                unsafe { plaitgate_table_expiry(image.as_ptr(), image.len(), found.address(), tai.address()) };
            Written {
                refusal,
                results: vec![found.value::<u8>(), tai.value::<u64>()],
                spilled: found.spilled::<u8>() || tai.spilled::<u64>(),
            }
        },
    }
}

/// The expiry that is there before, and the new one.
fn set_expiry() -> Call {
    Call {
        name: "table_set_expiry",
        inputs: &[TABLE, EXPIRY, ("tai", u64::KIND)],
        results: IMAGE_AFTERWARDS,
        prototype: prototype_of("table_set_expiry", &[&CHANGED[..], &[("tai", u64::KIND.c_name)]].concat(), &[]),
        panic_is: None,
        trials: |inputs| tables_with_expiries(instants::tables(inputs), 2),
        recorded: None,
        original: |inputs| {
            let before = prepared(inputs[0]);
            before.table.as_ref().ok_or(BAD_TABLE)?;
            Ok(words(&with_expiry(before.bytes(), u64::narrow(inputs[2]))))
        },
        kept: Some(|inputs| words(&image_of(inputs))),
        port: |inputs| {
            let tai = u64::narrow(inputs[2]);
            lend_bytes(&image_of(inputs), |image, bytes| {
                // SAFETY: the image is so long
                unsafe { plaitgate_table_set_expiry(image, bytes, tai) }
            })
        },
    }
}

/// Extension keeps the expiry.
fn try_extend() -> Call {
    let entry: [(&str, &str); 2] = [("tai_nanos", u64::KIND.c_name), ("tai_minus_utc", i32::KIND.c_name)];
    Call {
        name: "table_try_extend",
        inputs: &[TABLE, EXPIRY, ("tai_nanos", u64::KIND), ("tai_minus_utc", i32::KIND)],
        results: IMAGE_AFTERWARDS,
        prototype: prototype_of("table_try_extend", &[CHANGED, entry].concat(), &[]),
        panic_is: None,
        trials: |inputs| {
            let Trials { draw, .. } = instants::extensions(inputs);
            let draw = move |chance: &mut Chance| {
                let mut inputs = draw(chance);
                inputs.insert(1, draw_expiry(chance));
                inputs
            };
            Trials { groups: vec![], draw: Box::new(draw) }
        },
        recorded: None,
        original: |inputs| {
            let mut after = image_of(inputs);
            let mut table = table_in(&after).ok_or(BAD_TABLE)?;
            let entry = LeapEntry::new(u64::narrow(inputs[2]), i32::narrow(inputs[3]));
            table.try_extend(entry).map_err(refusal_of)?;
            put_entries(&mut after, table.entries());
            Ok(words(&after))
        },
        kept: Some(|inputs| words(&image_of(inputs))),
        port: |inputs| {
            let (tai_nanos, tai_minus_utc) = (u64::narrow(inputs[2]), i32::narrow(inputs[3]));
            lend_bytes(&image_of(inputs), |image, bytes| {
                // SAFETY: the image is so long
                unsafe { plaitgate_table_try_extend(image, bytes, tai_nanos, tai_minus_utc) }
            })
        },
    }
}
