//! One call as both sides give it, and the form of its entry in the table.

use crate::inputs::Trials;
use crate::number::Kind;

/// A named input or result of a call.
pub type Named = (&'static str, Kind);

/// The crate's side of an answer: the results, or the number of the refusal.
pub type Outcome = Result<Vec<i128>, u32>;

/// What comes back over the C boundary.
#[derive(PartialEq)]
pub struct Written {
    /// The number of the refusal, 0 for an answer.
    pub refusal: u32,
    pub results: Vec<i128>,
    /// A byte next to the places of the results was changed.
    pub spilled: bool,
}

pub struct Call {
    pub name: &'static str,
    pub inputs: &'static [Named],
    pub results: &'static [Named],
    /// The declaration that the header has to have, without the semicolon.
    pub prototype: String,
    /// The refusal that the rules give where the crate panics; `None` where it must not panic.
    pub panic_is: Option<u32>,
    /// What the call is tried on.
    pub trials: fn(&'static [Named]) -> Trials,
    /// What the recorded list has of it; `None` where it is not in that list.
    pub recorded: Option<fn(&'static [Named]) -> Trials>,
    pub original: fn(&[i128]) -> Outcome,
    /// The results on a refusal, where they are not zeros.
    pub kept: Option<fn(&[i128]) -> Vec<i128>>,
    pub port: fn(&[i128]) -> Written,
}

impl Call {
    /// What the port has to write for a crate's outcome: the results, or the refusal and zeros, or what is kept.
    pub fn due(&self, inputs: &[i128], outcome: Outcome) -> Written {
        match outcome {
            Ok(results) => Written { refusal: 0, results, spilled: false },
            Err(refusal) => {
                let results = self.kept.map_or_else(|| vec![0; self.results.len()], |kept| kept(inputs));
                Written { refusal, results, spilled: false }
            }
        }
    }
}

/// The C declaration of a call whose inputs and results are numbers.
pub fn prototype(name: &str, inputs: &[Named], results: &[Named]) -> String {
    let inputs: Vec<(&str, &str)> = inputs.iter().map(|(name, kind)| (*name, kind.c_name)).collect();
    prototype_of(name, &inputs, results)
}

/// The C declaration of a call, with the names of its inputs and their C types.
pub fn prototype_of(name: &str, inputs: &[(&str, &str)], results: &[Named]) -> String {
    let inputs = inputs.iter().map(|(name, c_name)| format!("{c_name} {name}"));
    let results = results.iter().map(|(name, kind)| format!("{} *{name}", kind.c_name));
    let parameters: Vec<String> = inputs.chain(results).collect();
    format!("uint32_t plaitgate_{name}({})", parameters.join(", "))
}

/// An entry of the table: `call!("name", (inputs) -> (results), what the crate answers)`, where the last part
/// uses the inputs by name and may be of any type that has an `Outcome` (original.rs). The name may be given
/// in parts. `tried on f` at the end names what it is tried on, if that is not `inputs::numbers`, and after it
/// `panic is N` the refusal that stands for a panic of the crate.
#[macro_export]
macro_rules! call {
    ($($part:literal)+, ($($input:ident: $given:ty),*) -> ($($result:ident: $written:ty),*), $original:expr
        $(, tried on $trials:path)? $(, panic is $refusal:literal)?) => {{
        use $crate::number::{Number, Place};
        extern "C" {
            #[link_name = concat!("plaitgate_", $($part),+)]
            fn exported($($input: $given,)* $($result: *mut $written),*) -> u32;
        }
        fn original(inputs: &[i128]) -> $crate::call::Outcome {
            let [$($input),*] = *inputs else { unreachable!("another number of inputs was drawn") };
            $(let $input = <$given>::narrow($input);)*
            $crate::original::Answer::outcome($original)
        }
        fn port(inputs: &[i128]) -> $crate::call::Written {
            let [$($input),*] = *inputs else { unreachable!("another number of inputs was drawn") };
            $(let $input = <$given>::narrow($input);)*
            $(let mut $result = Place::new();)*
            // SAFETY: each place outlives the call and has room for its number
            let refusal = unsafe { exported($($input,)* $($result.address::<$written>()),*) };
            $crate::call::Written {
                refusal,
                results: vec![$($result.value::<$written>()),*],
                spilled: false $(|| $result.spilled::<$written>())*,
            }
        }
        const NAME: &str = concat!($($part),+);
        const INPUTS: &[$crate::call::Named] = &[$((stringify!($input), <$given>::KIND)),*];
        const RESULTS: &[$crate::call::Named] = &[$((stringify!($result), <$written>::KIND)),*];
        const TRIALS: fn(&'static [$crate::call::Named]) -> $crate::inputs::Trials =
            [$($trials as fn(&'static [$crate::call::Named]) -> $crate::inputs::Trials,)? $crate::inputs::numbers][0];
        $crate::call::Call {
            name: NAME,
            inputs: INPUTS,
            results: RESULTS,
            prototype: $crate::call::prototype(NAME, INPUTS, RESULTS),
            panic_is: [$(Some($refusal),)? None][0],
            trials: TRIALS,
            recorded: Some(TRIALS),
            original,
            kept: None,
            port,
        }
    }};
}
