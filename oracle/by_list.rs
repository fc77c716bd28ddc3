//! The calls on a list of entries that the caller lends, an entry each. Their first input is the number of a list
//! (lists.rs).

use crate::by_table::found;
use crate::call::{prototype_of, Call, Named, Outcome, Written};
use crate::lists::{self, lent};
use crate::number::Number;
use crate::original::{never_stale, refusal_of, BAD_TABLE};
use gnss_time::{LeapSeconds, LeapSecondsProvider, Time};

const LIST: Named = ("list", u64::KIND);

/// An entry for a call that reads a list: `by_list!("name", (inputs) -> (results), what the crate answers, tried on
/// f)`, where the crate's side uses the inputs by name, and the crate's table over the same entries as `list`. Where
/// the bytes are no list that the crate would take, 8 is due; a list of no entries is one.
macro_rules! by_list {
    ($name:literal, $list:ident ($($input:ident: $taken:ty),*) -> ($($result:ident: $written:ty),*), $original:expr,
        tried on $trials:path) => {{
        extern "C" {
            #[link_name = concat!("plaitgate_", $name)]
            fn exported(
                entries: *const u8,
                entries_bytes: usize,
                $($input: $taken,)*
                $($result: *mut $written),*
            ) -> u32;
        }
        fn original(inputs: &[i128]) -> Outcome {
            let [list $(, $input)*] = *inputs else { unreachable!("another number of inputs was drawn") };
            $(let $input = <$taken>::narrow($input);)*
            let $list = lent(list).taken.as_ref().ok_or(BAD_TABLE)?;
            $crate::original::Answer::outcome($original)
        }
        fn port(inputs: &[i128]) -> Written {
            let [list $(, $input)*] = *inputs else { unreachable!("another number of inputs was drawn") };
            $(let $input = <$taken>::narrow($input);)*
            $(let mut $result = $crate::number::Place::new();)*
            let bytes = lent(list).bytes();
            // SAFETY: the list is so long, and each place outlives the call and has room for its number
            let refusal = unsafe {
                exported(bytes.as_ptr(), bytes.len(), $($input,)* $($result.address::<$written>()),*)
            };
            Written {
                refusal,
                results: vec![$($result.value::<$written>()),*],
                spilled: false $(|| $result.spilled::<$written>())*,
            }
        }
        const RESULTS: &[Named] = &[$((stringify!($result), <$written>::KIND)),*];
        Call {
            name: $name,
            inputs: &[LIST $(, (stringify!($input), <$taken>::KIND))*],
            results: RESULTS,
            prototype: prototype_of(
                $name,
                &[
                    ("*entries", "const uint8_t"),
                    ("entries_bytes", "size_t"),
                    $((stringify!($input), <$taken>::KIND.c_name),)*
                ],
                RESULTS,
            ),
            panic_is: None,
            trials: $trials,
            recorded: None,
            original,
            kept: None,
            port,
        }
    }};
}

pub fn calls() -> [Call; 6] {
    [
        Call {
            original: |inputs| {
                let entries = lent(inputs[0]).entries.ok_or(BAD_TABLE)?;
                LeapSeconds::try_from_slice(entries).map(|_| vec![]).map_err(refusal_of)
            },
            ..by_list!("list_check", _list () -> (), Ok(vec![]) as Outcome, tried on lists::each)
        },
        by_list!("list_len", list () -> (len: u64), list.len() as u64, tried on lists::each),
        by_list!("list_is_empty", list () -> (yes: u8), list.is_empty(), tried on lists::each),
        by_list!("list_last_update", list () -> (found: u8, tai: u64),
            found(list.last_update().map(|tai| [tai.as_nanos().wide()])), tried on lists::each),
        by_list!("list_current_tai_minus_utc", list () -> (offset: i32), list.current_tai_minus_utc(),
            tried on lists::each),
        by_list!("list_tai_minus_utc_at", list (tai: u64) -> (offset: i32, stale: u8),
            never_stale(list.tai_minus_utc_at(Time::from_nanos(tai))), tried on lists::with_readings),
    ]
}
