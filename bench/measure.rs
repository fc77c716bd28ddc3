//! Two ways to the same answers, timed in turns.

use gnss_time::{CivilDateTime, Time, TimeScale};
use std::fmt::Debug;
use std::hint::black_box;
use std::time::{Duration, Instant};

const ROUNDS: usize = 25;
/// The inputs are timed in parts, each so short that in some round nothing else comes between.
const PART: usize = 10_000;
/// How often a file is passed over in one part.
const PASSES: usize = 200;

/// The answer, or the number of the refusal.
pub type Answer<A> = Result<A, u32>;

#[inline(always)]
pub fn answer<A>(refusal: u32, answer: A) -> Answer<A> {
    match refusal {
        0 => Ok(answer),
        refusal => Err(refusal),
    }
}

/// An answer that a host goes on with.
pub trait Used {
    /// A number that every part of the answer goes into.
    fn used(self) -> u64;
}

impl Used for u64 {
    fn used(self) -> u64 {
        self
    }
}

impl<S: TimeScale> Used for Time<S> {
    fn used(self) -> u64 {
        self.as_nanos()
    }
}

impl Used for CivilDateTime {
    fn used(self) -> u64 {
        let date = self.year as u64 + u64::from(self.month) + u64::from(self.day);
        date + u64::from(self.hour) + u64::from(self.minute) + u64::from(self.second) + u64::from(self.nanos)
    }
}

pub struct Bench;

impl Bench {
    pub fn begin() -> Bench {
        println!("Nanoseconds for a call, best of {ROUNDS} rounds each, in turns.");
        Bench
    }

    /// The heading of what `compare` and `alone` write.
    pub fn begin_compare(&self) {
        println!("{:<18} {:<10} {:>8} {:>8} {:>10}", "", "inputs", "crate", "port", "port/crate");
    }

    /// Measures both on the same inputs, after seeing that they agree on each. Each side has its own errors.
    pub fn compare<Input: Copy + Debug, Answer: Used + PartialEq + Debug, Error, Refusal>(
        &self,
        name: &str,
        order: &str,
        inputs: &[Input],
        original: impl Fn(Input) -> Result<Answer, Error>,
        port: impl Fn(Input) -> Result<Answer, Refusal>,
    ) {
        for input in inputs {
            assert_eq!(original(*input).ok(), port(*input).ok(), "{name} of {input:?}: the crate, then the port");
        }
        let (mut of_original, mut of_port) = (Best::new(inputs), Best::new(inputs));
        for _ in 0..ROUNDS {
            of_original.round(inputs, &original);
            of_port.round(inputs, &port);
        }
        let (original, port) = (of_original.nanos_for_each(inputs), of_port.nanos_for_each(inputs));
        println!("{name:<18} {order:<10} {original:>8.2} {port:>8.2} {:>10.2}", port / original);
    }

    /// Measures one call of the port against another, after seeing that `same` holds of their answers. The inputs
    /// are pairs, one for each of the two; both are timed on reading one half of each pair.
    pub fn against<First: Used, Second: Used, Refusal>(
        &self,
        name: &str,
        order: &str,
        inputs: &[(u64, u64)],
        first: impl Fn(u64) -> Result<First, Refusal>,
        second: impl Fn(u64) -> Result<Second, Refusal>,
        same: impl Fn(u64, u64) -> bool,
    ) {
        let used = |answer: Option<u64>| answer.expect("every input has an answer");
        for (a, b) in inputs {
            let answers = (first(*a).ok().map(Used::used), second(*b).ok().map(Used::used));
            assert!(same(used(answers.0), used(answers.1)), "{name} of {a} and {b}: {answers:?}");
        }
        let (mut of_first, mut of_second) = (Best::new(inputs), Best::new(inputs));
        for _ in 0..ROUNDS {
            of_first.round(inputs, |(a, _)| first(a));
            of_second.round(inputs, |(_, b)| second(b));
        }
        let (first, second) = (of_first.nanos_for_each(inputs), of_second.nanos_for_each(inputs));
        println!("{name:<25} {order:<10} {first:>8.2} {second:>8.2} {:>10.2}", second / first);
    }

    /// The heading of what `against` writes: what the two calls are.
    pub fn begin_against(&self, first: &str, second: &str) {
        let part = format!("{second}/{first}");
        println!("{:<25} {:<10} {first:>8} {second:>8} {part:>10}", "Two calls of the port", "inputs");
    }

    /// Measures the port on the bytes of a file, and another pass over the same bytes.
    pub fn passes<Refusal>(
        &self,
        name: &str,
        file: &[u8],
        other: impl Fn(&[u8]) -> Result<u64, Refusal>,
        port: impl Fn(&[u8]) -> Result<u64, Refusal>,
    ) {
        let inputs = [file; PASSES];
        let (mut of_other, mut of_port) = (Best::new(&inputs), Best::new(&inputs));
        for _ in 0..ROUNDS {
            of_other.round(&inputs, &other);
            of_port.round(&inputs, &port);
        }
        let (other, port) = (of_other.nanos_for_each(&inputs), of_port.nanos_for_each(&inputs));
        println!("{name:<25} {:<10} {other:>8.0} {port:>8.0} {:>11.2}", file.len(), port / other);
    }

    /// The heading of what `passes` writes.
    pub fn begin_passes(&self) {
        println!("{:<25} {:<10} {:>8} {:>8} {:>11}", "A file", "bytes", "memchr", "port", "port/memchr");
    }

    /// Measures what only the port does.
    pub fn alone<Input: Copy, Answer: Used, Refusal>(
        &self,
        name: &str,
        order: &str,
        inputs: &[Input],
        port: impl Fn(Input) -> Result<Answer, Refusal>,
    ) {
        let mut best = Best::new(inputs);
        for _ in 0..ROUNDS {
            best.round(inputs, &port);
        }
        println!("{name:<18} {order:<10} {:>8} {:>8.2}", "", best.nanos_for_each(inputs));
    }
}

/// The best time of each part of the inputs.
struct Best(Vec<Duration>);

impl Best {
    fn new<Input>(inputs: &[Input]) -> Best {
        Best(inputs.chunks(PART).map(|_| Duration::MAX).collect())
    }

    fn round<Input: Copy, Answer: Used, Error>(
        &mut self,
        inputs: &[Input],
        answer: impl Fn(Input) -> Result<Answer, Error>,
    ) {
        for (best, part) in self.0.iter_mut().zip(inputs.chunks(PART)) {
            *best = time(part, &answer).min(*best);
        }
    }

    fn nanos_for_each<Input>(&self, inputs: &[Input]) -> f64 {
        self.0.iter().sum::<Duration>().as_nanos() as f64 / inputs.len() as f64
    }
}

/// The time of one pass, in which every part of each answer is read.
#[inline(never)]
fn time<Input: Copy, Answer: Used, Error>(
    inputs: &[Input],
    answer: impl Fn(Input) -> Result<Answer, Error>,
) -> Duration {
    let began = Instant::now();
    let sum = inputs.iter().fold(0, |sum: u64, input| sum.wrapping_add(answer(*input).map_or(0, Used::used)));
    black_box(sum);
    began.elapsed()
}
