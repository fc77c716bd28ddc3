//! The civil readings in which an inserted second is 23:59:60, which the crate does not have: four calls, by the
//! built-in table and by one in an image, held to a reader of the oracle's own (civil_reader.rs).

use crate::call::{prototype_of, Named, Outcome, Written};
use crate::chance::Chance;
use crate::civil_reader::{mended, out_of_range, Fields, Reader};
use crate::civil_reader::{INVALID_NANOS, NOT_ON_DAYS, NO_INSERTED_SECOND, OVERFLOW};
use crate::civil_reader::{NO_SUCH_DAY, NO_SUCH_HOUR, NO_SUCH_MINUTE, NO_SUCH_MONTH, NO_SUCH_SECOND};
use crate::dated_rules::is_regular;
use crate::images::{table_in, with_expiry, words, NO_EXPIRY};
use crate::number::{Number, Place};
use crate::original::BAD_TABLE;
use crate::reading_inputs::{self as tried, KINDS};
use gnss_time::{LeapEntry, LeapSeconds};
use std::collections::BTreeMap;

extern "C" {
    fn plaitgate_builtin_gps_to_civil(
        gps: u64,
        year: *mut i32,
        month: *mut u8,
        day: *mut u8,
        hour: *mut u8,
        minute: *mut u8,
        second: *mut u8,
        nanos: *mut u32,
    ) -> u32;
    fn plaitgate_builtin_civil_to_gps(
        year: i32,
        month: u8,
        day: u8,
        hour: u8,
        minute: u8,
        second: u8,
        nanos: u32,
        gps: *mut u64,
    ) -> u32;
    fn plaitgate_table_gps_to_civil(
        gps: u64,
        image: *const u8,
        image_bytes: usize,
        year: *mut i32,
        month: *mut u8,
        day: *mut u8,
        hour: *mut u8,
        minute: *mut u8,
        second: *mut u8,
        nanos: *mut u32,
        stale: *mut u8,
    ) -> u32;
    fn plaitgate_table_civil_to_gps(
        year: i32,
        month: u8,
        day: u8,
        hour: u8,
        minute: u8,
        second: u8,
        nanos: u32,
        image: *const u8,
        image_bytes: usize,
        gps: *mut u64,
        stale: *mut u8,
    ) -> u32;
}

/// The four calls by their places in `CALLS`.
const BUILTIN_READING: usize = 0;
const BUILTIN_BACK: usize = 1;
const TABLE_READING: usize = 2;
const TABLE_BACK: usize = 3;

/// Each call's name, and the numbers that have to come in addition to those for fields out of range.
const CALLS: [(&str, &[u32]); 4] = [
    ("builtin_gps_to_civil", &[0, OVERFLOW]),
    ("builtin_civil_to_gps", &[0, OVERFLOW, NO_INSERTED_SECOND]),
    ("table_gps_to_civil", &[0, OVERFLOW, BAD_TABLE, NOT_ON_DAYS]),
    ("table_civil_to_gps", &[0, OVERFLOW, BAD_TABLE, NOT_ON_DAYS, NO_INSERTED_SECOND]),
];

/// The refusals for fields out of range, in the order in which they are due.
const OUT_OF_RANGE: [u32; 6] =
    [NO_SUCH_MONTH, NO_SUCH_DAY, NO_SUCH_HOUR, NO_SUCH_MINUTE, NO_SUCH_SECOND, INVALID_NANOS];

/// Every two refusals of a call that the same fields can have earned, the one that is due first.
fn pairs_in_order(call: usize) -> Vec<(u32, u32)> {
    let of_fields = [&OUT_OF_RANGE[..], &[NO_INSERTED_SECOND, OVERFLOW]].concat();
    let mut pairs = Vec::new();
    for (place, first) in of_fields.iter().enumerate() {
        pairs.extend(of_fields[place + 1..].iter().map(|later| (*first, *later)));
    }
    // a second above 60 is not 60
    pairs.retain(|pair| *pair != (NO_SUCH_SECOND, NO_INSERTED_SECOND));
    let of_tables: &[u32] = if call == TABLE_BACK { &[BAD_TABLE, NOT_ON_DAYS] } else { &[] };
    pairs.extend(of_tables.iter().flat_map(|first| OUT_OF_RANGE.map(|later| (*first, later))));
    pairs
}

const NAMES: [&str; 7] = ["year", "month", "day", "hour", "minute", "second", "nanos"];
const GPS: Named = ("gps", u64::KIND);
const STALE: Named = ("stale", u8::KIND);
const TAI_MINUS_GPS: i128 = 19_000_000_000;
const DIFFERENCES_SHOWN: u64 = 5;
/// How many changes of one reading's fields, and how many pairs of wrong ones, are tried by each table in order; by the
/// built-in one all are.
const CHANGES_FOR_EACH: [usize; 2] = [6, 2];
const ALL_CHANGES: [usize; 2] = [usize::MAX; 2];
/// By a table that is refused each 32nd count is tried.
const REFUSED_STEP: usize = 32;
/// By a table in an image each 32nd of the days around the ends of months is tried, by the built-in one all are.
const DATES_STEP: usize = 32;
/// How many random questions of either kind are asked by one random table.
const QUESTIONS_FOR_EACH: u64 = 50;

fn fields_named() -> Vec<Named> {
    NAMES.into_iter().zip(KINDS).collect()
}

/// The declarations that the header has to have.
pub fn prototypes() -> Vec<String> {
    let c_types = |named: &[Named]| named.iter().map(|(name, kind)| (*name, kind.c_name)).collect::<Vec<_>>();
    let (fields, gps) = (fields_named(), vec![GPS]);
    let image = [("*image", "const uint8_t"), ("image_bytes", "size_t")];
    let by_builtin = |name, given: &[Named], results: &[Named]| prototype_of(name, &c_types(given), results);
    let by_table = |name, given: &[Named], results: &[Named]| {
        prototype_of(name, &[&c_types(given)[..], &image].concat(), &[results, &[STALE]].concat())
    };
    vec![
        by_builtin(CALLS[BUILTIN_READING].0, &gps, &fields),
        by_builtin(CALLS[BUILTIN_BACK].0, &fields, &gps),
        by_table(CALLS[TABLE_READING].0, &gps, &fields),
        by_table(CALLS[TABLE_BACK].0, &fields, &gps),
    ]
}

/// Compares the four calls. What there is to say of it, or why it failed.
pub fn compare(seed: u64, count: u64) -> Result<Vec<String>, String> {
    let mut tally = Tally::default();
    let builtin = By::builtin();
    tally.in_order(&builtin, ALL_CHANGES);
    for bytes in tried::images() {
        tally.in_order(&By::image(&bytes), CHANGES_FOR_EACH);
    }
    let mut chance = Chance::of("civil readings", seed);
    for _ in 0..count {
        tally.at_random(&builtin, &mut chance);
    }
    for _ in 0..count.div_ceil(QUESTIONS_FOR_EACH) {
        let table = By::image(&tried::draw_image(&mut chance));
        for _ in 0..QUESTIONS_FOR_EACH {
            tally.at_random(&table, &mut chance);
        }
    }
    tally.verdict()
}

/// What counts are read by: the built-in table or an image.
struct By {
    image: Option<Vec<u8>>,
    /// The entries, where they are a valid table.
    entries: Vec<LeapEntry>,
    /// The reader, or the number by which this table is refused.
    reader: Result<Reader, u32>,
}

impl By {
    fn builtin() -> By {
        let entries = LeapSeconds::builtin().entries().to_vec();
        By { image: None, reader: Reader::new(&entries), entries }
    }

    fn image(bytes: &[u8]) -> By {
        let entries = table_in(bytes).map(|table| table.entries().to_vec());
        By {
            image: Some(bytes.to_vec()),
            reader: entries.as_ref().ok_or(BAD_TABLE).and_then(|entries| Reader::new(entries)),
            entries: entries.unwrap_or_default(),
        }
    }

    fn reader(&self) -> Result<&Reader, u32> {
        self.reader.as_ref().map_err(|refusal| *refusal)
    }
}

#[derive(Clone, Copy)]
enum Question {
    /// The reading of a GPS count.
    Reading(i128),
    /// The GPS count that fields are read back to.
    Back(Fields),
}

use Question::{Back, Reading};

impl Question {
    /// The place in `CALLS` of the call that is asked.
    fn call(self, by_table: bool) -> usize {
        match (self, by_table) {
            (Reading(_), false) => BUILTIN_READING,
            (Back(_), false) => BUILTIN_BACK,
            (Reading(_), true) => TABLE_READING,
            (Back(_), true) => TABLE_BACK,
        }
    }

    fn given(self) -> Vec<i128> {
        match self {
            Reading(gps) => vec![gps],
            Back(fields) => fields.to_vec(),
        }
    }

    fn due(self, by: &By) -> Outcome {
        let reader = by.reader()?;
        match self {
            Reading(gps) => reader.reading(gps).map(|fields| fields.to_vec()),
            Back(fields) => reader.read_back(fields).map(|gps| vec![gps]),
        }
    }

    /// The TAI reading of the GPS count that is given or due.
    fn tai(self, due: &Outcome) -> Option<i128> {
        let gps = match self {
            Reading(gps) => gps,
            Back(_) => *due.as_ref().ok()?.first()?,
        };
        Some(gps + TAI_MINUS_GPS)
    }

    fn port(self, image: Option<&[u8]>) -> Written {
        match (self, image) {
            (Reading(gps), None) => builtin_reading(u64::narrow(gps)),
            (Reading(gps), Some(image)) => table_reading(u64::narrow(gps), image),
            (Back(fields), image) => read_back(fields, image),
        }
    }
}

pub fn builtin_reading(gps: u64) -> Written {
    let mut places = [(); 7].map(|()| Place::new());
    let [year, month, day, hour, minute, second, nanos] = &mut places;
    // SAFETY: each place outlives the call and has room for its number
    let refusal = unsafe {
        plaitgate_builtin_gps_to_civil(
            gps,
            year.address(),
            month.address(),
            day.address(),
            hour.address(),
            minute.address(),
            second.address(),
            nanos.address(),
        )
    };
    written(refusal, &mut places)
}

fn table_reading(gps: u64, image: &[u8]) -> Written {
    let mut places = [(); 8].map(|()| Place::new());
    let [year, month, day, hour, minute, second, nanos, stale] = &mut places;
    // SAFETY: the image is so long, and each place outlives the call and has room for its number
    let refusal = unsafe {
        plaitgate_table_gps_to_civil(
            gps,
            image.as_ptr(),
            image.len(),
            year.address(),
            month.address(),
            day.address(),
            hour.address(),
            minute.address(),
            second.address(),
            nanos.address(),
            stale.address(),
        )
    };
    written(refusal, &mut places)
}

/// What is in the places of a reading: year, five bytes, nanoseconds, and by a table one byte more.
fn written(refusal: u32, places: &mut [Place]) -> Written {
    let mut results = Vec::new();
    let mut spilled = false;
    for (which, place) in places.iter_mut().enumerate() {
        let (value, beside) = match which {
            0 => (place.value::<i32>(), place.spilled::<i32>()),
            6 => (place.value::<u32>(), place.spilled::<u32>()),
            _ => (place.value::<u8>(), place.spilled::<u8>()),
        };
        results.push(value);
        spilled |= beside;
    }
    Written { refusal, results, spilled }
}

/// By an image, or by the built-in table where there is none.
pub fn read_back(fields: Fields, image: Option<&[u8]>) -> Written {
    let year = i32::narrow(fields[0]);
    let [month, day, hour, minute, second] = [1, 2, 3, 4, 5].map(|place| u8::narrow(fields[place]));
    let nanos = u32::narrow(fields[6]);
    let (mut gps, mut stale) = (Place::new(), Place::new());
    let Some(image) = image else {
        // SAFETY: the place outlives the call and has room for its number
        let refusal =
            unsafe { plaitgate_builtin_civil_to_gps(year, month, day, hour, minute, second, nanos, gps.address()) };
        return Written { refusal, results: vec![gps.value::<u64>()], spilled: gps.spilled::<u64>() };
    };
    // SAFETY: the image is so long, and each place outlives the call and has room for its number
    let refusal = unsafe {
        plaitgate_table_civil_to_gps(
            year,
            month,
            day,
            hour,
            minute,
            second,
            nanos,
            image.as_ptr(),
            image.len(),
            gps.address(),
            stale.address(),
        )
    };
    Written {
        refusal,
        results: vec![gps.value::<u64>(), stale.value::<u8>()],
        spilled: gps.spilled::<u64>() || stale.spilled::<u8>(),
    }
}

/// An expiry at a TAI reading, one before or one after it, or at an end of its type; they take turns.
fn expiry_near(tai: Option<i128>, turn: usize) -> u64 {
    let greatest = i128::from(u64::MAX);
    let mut expiries = vec![0, greatest - 1, greatest];
    expiries.extend(tai.into_iter().flat_map(|tai| [tai - 1, tai, tai + 1]));
    expiries.retain(|expiry| (0..=greatest).contains(expiry));
    u64::narrow(expiries[turn % expiries.len()])
}

/// The refusal that comes once the table or the field that a refusal is about is mended.
fn next_refusal(by: &By, fields: Fields, refusal: u32) -> Option<u32> {
    match by.reader() {
        Err(_) => out_of_range(fields),
        Ok(_) if refusal == OVERFLOW => None,
        Ok(reader) => reader.read_back(mended(fields, refusal)).err(),
    }
}

fn is_29_february([_, month, day, ..]: Fields) -> bool {
    [month, day] == [2, 29]
}

/// What has to be met in addition to the numbers.
enum Met {
    ReadAs60,
    BackFrom60,
    Later,
    PastTheRange,
    OffDays,
    OnlyLenient,
    LeapHundred,
    CommonHundred,
    FarLeapDay,
    Stale,
    Fresh,
}

const MET: [&str; 11] = [
    "were read as 23:59:60",
    "read back from it",
    "read back to the later of two counts",
    "refused as inserted past the range",
    "refused by a regular table off days",
    "refused as out of range where the lenient formula has a count",
    "read back from 29 February of a hundred",
    "refused as 29 February of a hundred that has none",
    "refused as 29 February of a year that no count reaches",
    "stale",
    "not stale with an expiry",
];

#[derive(Default)]
struct Tally {
    differences: u64,
    /// How often each number came, by call.
    answers: [BTreeMap<u32, u64>; 4],
    /// How often each refusal came where another would have come next, by call.
    pairs: [BTreeMap<(u32, u32), u64>; 4],
    met: [u64; MET.len()],
    /// The number of questions so far, by which expiries and changes take turns.
    turn: usize,
}

impl Tally {
    /// All counts of a table and their fields, with up to so many changes of each and pairs of wrong fields, and dates.
    fn in_order(&mut self, by: &By, changes: [usize; 2]) {
        let step = if by.reader.is_ok() { 1 } else { REFUSED_STEP };
        for gps in tried::counts(&by.entries).into_iter().step_by(step) {
            if let Some(fields) = self.ask_reading(by, gps) {
                self.ask_back_with_changes(by, fields, changes);
            }
        }
        for fields in [tried::notable_fields(), tried::inserted_fields(&by.entries)].concat() {
            self.ask_back_with_changes(by, fields, changes);
        }
        let step = if by.image.is_none() { 1 } else { DATES_STEP };
        for fields in tried::ends_of_months().iter().skip(self.turn % step).step_by(step) {
            self.ask(by, Back(*fields));
        }
    }

    fn ask_back_with_changes(&mut self, by: &By, fields: Fields, [most, most_pairs]: [usize; 2]) {
        self.ask(by, Back(fields));
        let (changes, pairs) = (tried::changes(fields), tried::wrong_pairs());
        for _ in 0..most.min(changes.len()) {
            self.ask(by, Back(changes[self.turn % changes.len()]));
        }
        for _ in 0..most_pairs.min(pairs.len()) {
            self.ask(by, Back(tried::with_wrong(fields, pairs[self.turn % pairs.len()])));
        }
    }

    fn at_random(&mut self, by: &By, chance: &mut Chance) {
        let reading = self.ask_reading(by, tried::draw_count(chance, &by.entries));
        self.ask(by, Back(tried::draw_fields(chance, &by.entries, reading)));
    }

    /// Asks for the reading of a count, and gives the one that is due: the oracle's reader has to read it back, too.
    fn ask_reading(&mut self, by: &By, gps: i128) -> Option<Fields> {
        self.ask(by, Reading(gps));
        let fields = by.reader().ok()?.reading(gps).ok()?;
        let back = Back(fields).due(by);
        if back != Ok(vec![gps]) {
            self.differ(&format!("the oracle's reader reads {gps} as {fields:?}, and that back to {back:?}"));
        }
        Some(fields)
    }

    /// One question, by an image with an expiry of its own.
    fn ask(&mut self, by: &By, question: Question) {
        let due = question.due(by);
        self.turn += 1;
        self.note(by, question, &due);
        let Some(bytes) = &by.image else {
            return self.compare_once(question, None, due);
        };
        let tai = question.tai(&due);
        // by thirds of the turns: readings and reading back may alternate, and each is to meet all expiries
        let expiry = expiry_near(tai, self.turn / 3);
        let stale = tai.is_some_and(|tai| expiry != NO_EXPIRY && tai >= expiry.into());
        if due.is_ok() && expiry != NO_EXPIRY {
            self.meet(if stale { Met::Stale } else { Met::Fresh }, true);
        }
        let told = due.map(|results| [results, vec![stale.into()]].concat());
        // one byte before the image brings it to an odd address
        let lent = [&[0xA5], &with_expiry(bytes, expiry)[..]].concat();
        self.compare_once(question, Some(&lent[1..]), told);
    }

    /// Notes what a question meets.
    fn note(&mut self, by: &By, question: Question, due: &Outcome) {
        self.meet(Met::OffDays, *due == Err(NOT_ON_DAYS) && is_regular(&by.entries));
        match (question, due) {
            (Reading(_), Ok(fields)) => self.meet(Met::ReadAs60, fields[5] == 60),
            (Back(fields), Ok(counts)) => self.note_read_back(by, fields, counts[0]),
            (Back(fields), Err(refusal)) => self.note_refused(by, fields, *refusal),
            _ => (),
        }
    }

    fn note_read_back(&mut self, by: &By, fields: Fields, gps: i128) {
        let inserted = fields[5] == 60;
        self.meet(Met::BackFrom60, inserted);
        self.meet(Met::Later, !inserted && by.reader().is_ok_and(|reader| reader.has_an_earlier(gps)));
        self.meet(Met::LeapHundred, is_29_february(fields) && fields[0] % 100 == 0);
    }

    fn note_refused(&mut self, by: &By, fields: Fields, refusal: u32) {
        if let Some(next) = next_refusal(by, fields, refusal) {
            let call = Back(fields).call(by.image.is_some());
            *self.pairs[call].entry((refusal, next)).or_default() += 1;
        }
        let Ok(reader) = by.reader() else { return };
        match refusal {
            NO_INSERTED_SECOND => self.meet(Met::PastTheRange, reader.inserts_past_the_range(fields)),
            OVERFLOW => self.meet(Met::FarLeapDay, is_29_february(fields)),
            _ => self.meet(Met::OnlyLenient, reader.reads_leniently(fields)),
        }
        let hundred = is_29_february(fields) && fields[0] % 100 == 0;
        self.meet(Met::CommonHundred, refusal == NO_SUCH_DAY && hundred);
    }

    fn meet(&mut self, which: Met, met: bool) {
        self.met[which as usize] += u64::from(met);
    }

    fn compare_once(&mut self, question: Question, image: Option<&[u8]>, due: Outcome) {
        let call = question.call(image.is_some());
        let port = question.port(image);
        *self.answers[call].entry(port.refusal).or_default() += 1;
        let due = match due {
            Ok(results) => Written { refusal: 0, results, spilled: false },
            Err(refusal) => Written { refusal, results: vec![0; port.results.len()], spilled: false },
        };
        if port != due {
            self.differ(&difference(CALLS[call].0, question, image, &due, &port));
        }
    }

    fn differ(&mut self, difference: &str) {
        self.differences += 1;
        if self.differences <= DIFFERENCES_SHOWN {
            println!("DIFFERENCE {difference}");
        }
    }

    fn verdict(&self) -> Result<Vec<String>, String> {
        let comparisons: u64 = self.answers.iter().flat_map(BTreeMap::values).sum();
        if self.differences > 0 {
            return Err(format!("{} differences in {comparisons} civil readings", self.differences));
        }
        let mut sentences = Vec::new();
        for call in 0..CALLS.len() {
            sentences.push(self.numbers_of(call)?);
        }
        for call in [BUILTIN_BACK, TABLE_BACK] {
            sentences.push(self.order_of(call)?);
        }
        let each: Vec<String> = MET.iter().zip(self.met).map(|(what, times)| format!("{times} {what}")).collect();
        if self.met.contains(&0) {
            return Err(format!("not all kinds of civil readings came: {}", each.join(", ")));
        }
        sentences.push(format!("{comparisons} civil readings, no difference: {}", each.join(", ")));
        Ok(sentences)
    }

    /// How often each number of a call came, or which did not.
    fn numbers_of(&self, call: usize) -> Result<String, String> {
        let ((name, numbers), answers) = (CALLS[call], &self.answers[call]);
        let of_fields: &[u32] = if [BUILTIN_BACK, TABLE_BACK].contains(&call) { &OUT_OF_RANGE } else { &[] };
        if let Some(number) = numbers.iter().chain(of_fields).find(|number| !answers.contains_key(number)) {
            return Err(format!("{name} did not give {number}"));
        }
        let each: Vec<String> = answers.iter().map(|(number, times)| format!("{number}: {times}")).collect();
        Ok(format!("{name}: answers by number: {}", each.join(", ")))
    }

    /// How often the rarest of a call's pairs of refusals came, or which did not.
    fn order_of(&self, call: usize) -> Result<String, String> {
        let (name, pairs) = (CALLS[call].0, pairs_in_order(call));
        let came = |pair: &(u32, u32)| self.pairs[call].get(pair).copied().unwrap_or(0);
        let (first, later) = pairs.iter().copied().min_by_key(came).expect("a call that refuses fields");
        match came(&(first, later)) {
            0 => Err(format!("{name} did not give {first} where {later} comes next")),
            times => Ok(format!(
                "{name}: {} pairs of refusals, each in its order; the rarest, {first} before {later}, {times} times",
                pairs.len()
            )),
        }
    }
}

fn difference(name: &str, question: Question, image: Option<&[u8]>, due: &Written, port: &Written) -> String {
    let said = |written: &Written| {
        let spilled = if written.spilled { ", and bytes next to the results" } else { "" };
        format!("{} and {:?}{spilled}", written.refusal, written.results)
    };
    let words = image.map(words).unwrap_or_default().into_iter().enumerate().filter(|(_, word)| *word != 0);
    let words: BTreeMap<usize, i128> = words.map(|(place, word)| (8 * place, word)).collect();
    let image = image.map_or(String::new(), |bytes| format!(" by {} bytes of zeros except {words:?}", bytes.len()));
    format!("{name}({:?}){image}\n    due:      {}\n    the port: {}", question.given(), said(due), said(port))
}
