//! What both sides are given: inputs in order, as the edges, and random inputs of mixed magnitude.

use crate::call::Named;
use crate::chance::Chance;
use crate::number::Kind;

const NANOS_PER_SECOND: i128 = 1_000_000_000;
const DAY_SECONDS: i128 = 86_400;
const WEEK_SECONDS: i128 = 7 * DAY_SECONDS;
const YEAR_SECONDS: i128 = 365 * DAY_SECONDS;
/// From the Unix epoch, 1970, to that of UTC, 1972.
const UNIX_TO_UTC_SECONDS: i128 = 2 * YEAR_SECONDS;
const GPS_TO_TAI_SECONDS: i128 = 19;
/// The boundaries that a count may lie at, each as seconds and as nanoseconds.
const UNITS_SECONDS: [i128; 6] = [1, GPS_TO_TAI_SECONDS, DAY_SECONDS, WEEK_SECONDS, YEAR_SECONDS, UNIX_TO_UTC_SECONDS];

/// The numbers around which answers change.
fn marks() -> Vec<i128> {
    let mut marks = vec![0, 10];
    marks.extend([8, 16, 31, 32, 63, 64].map(|bits| 1 << bits));
    // the days of a week, by which a day is a working day or not
    marks.extend((2..=6).map(|days| days * DAY_SECONDS * NANOS_PER_SECOND));
    for seconds in UNITS_SECONDS {
        let nanos = seconds * NANOS_PER_SECOND;
        marks.extend([seconds, nanos]);
        for greatest in [i128::from(u64::MAX), i128::from(i64::MAX)] {
            // the last whole unit, what is left after it, and the greatest that can still be moved by the unit
            let left = greatest % nanos;
            marks.extend([greatest / nanos, greatest - left, left, left / NANOS_PER_SECOND, greatest - nanos]);
            marks.push(greatest / NANOS_PER_SECOND + seconds);
        }
    }
    marks
}

/// The marks of both signs and their neighbours, as far as the kind holds them, from the least on.
pub fn edges(kind: &Kind) -> Vec<i128> {
    let around = |mark: i128| [mark - 1, mark, mark + 1];
    let mut edges: Vec<i128> = marks().into_iter().flat_map(|mark| [mark, -mark]).flat_map(around).collect();
    edges.retain(|edge| kind.holds(*edge));
    edges.sort_unstable();
    edges.dedup();
    edges
}

/// What a call is tried on: groups of inputs in order, and inputs drawn by chance.
pub struct Trials {
    pub groups: Vec<Group>,
    pub draw: Box<dyn Fn(&mut Chance) -> Vec<i128>>,
}

/// Inputs in order, each made when it is asked for.
pub struct Group {
    len: usize,
    at: Box<dyn Fn(usize) -> Vec<i128>>,
}

impl Group {
    pub fn new(len: usize, at: impl Fn(usize) -> Vec<i128> + 'static) -> Group {
        Group { len, at: Box::new(at) }
    }

    pub fn len(&self) -> usize {
        self.len
    }

    pub fn at(&self, place: usize) -> Vec<i128> {
        (self.at)(place)
    }
}

const MOST_COMBINATIONS: usize = 2_000_000;
/// A prime above the number of choices for any input, so that its steps meet each combination once.
const STEP: usize = 1_000_000_007;

/// The combinations of the choices for each input: all of them, the last input changing fastest, or, where those are
/// too many to try, as many as can be tried, from all over.
pub fn combinations(choices: Vec<Vec<i128>>) -> Group {
    let all: usize = choices.iter().map(Vec::len).product();
    let step = if all > MOST_COMBINATIONS { STEP } else { 1 };
    Group::new(all.min(MOST_COMBINATIONS), move |place| {
        let mut place = place * step % all;
        let mut inputs = vec![0; choices.len()];
        for (input, choices) in inputs.iter_mut().zip(&choices).rev() {
            *input = choices[place % choices.len()];
            place /= choices.len();
        }
        inputs
    })
}

/// What a call is tried on whose inputs are numbers of their types and no more: all combinations of edges, and
/// numbers of every length.
pub fn numbers(inputs: &'static [Named]) -> Trials {
    let edges: Vec<Vec<i128>> = inputs.iter().map(|(_, kind)| edges(kind)).collect();
    let drawn = Numbers { inputs, edges: edges.clone() };
    Trials { groups: vec![combinations(edges)], draw: Box::new(move |chance| drawn.draw(chance)) }
}

struct Numbers {
    inputs: &'static [Named],
    edges: Vec<Vec<i128>>,
}

impl Numbers {
    fn draw(&self, chance: &mut Chance) -> Vec<i128> {
        let mut drawn: Vec<i128> = Vec::with_capacity(self.inputs.len());
        // in half of the draws one lower bound for all inputs, or they would seldom be small together
        let most_bits = if chance.below(2) == 0 { 64 } else { chance.below(65) };
        for at in 0..self.inputs.len() {
            let number = loop {
                let number = self.number(chance, at, drawn.last().copied(), most_bits);
                if self.inputs[at].1.holds(number) {
                    break number;
                }
            };
            drawn.push(number);
        }
        drawn
    }

    /// A number for an input, which its kind may not hold: any of 64 bits, or near an edge, or such that the sum
    /// or difference with the input before it is near an edge, or of any length up to so many bits.
    fn number(&self, chance: &mut Chance, at: usize, before: Option<i128>, most_bits: u64) -> i128 {
        match (chance.below(5), before) {
            (0, _) => i128::from(chance.next()) + self.inputs[at].1.least,
            (1, _) => self.near_edge(chance, at),
            (2, Some(before)) => self.near_edge(chance, at) + before,
            (3, Some(before)) => self.near_edge(chance, at) - before,
            _ => chance.of_length_up_to(most_bits),
        }
    }

    fn near_edge(&self, chance: &mut Chance, at: usize) -> i128 {
        // up to some seconds away, in nanoseconds
        chance.one_of(&self.edges[at]) + chance.of_length_up_to(33)
    }
}
