//! Long inputs through the port's programs, and through the same programs written over the crate in two manners: with
//! the standard library's readers, writers and formats, and with digits by hand.

use gnss_time::{CivilDateTime, Gps, Time};
use std::fs::File;
use std::io::{self, BufRead, BufReader, BufWriter, Read, Write};
use std::path::Path;
use std::process::{Command, Stdio};
use std::time::{Duration, Instant};

const SECOND: u64 = 1_000_000_000;
const LINES: u64 = 5_000_000;
const ROUNDS: usize = 7;
const BLOCK: usize = 65_536;
const BAD_LINE: &[u8] = b"refused 10\n";
const OVERFLOW: &[u8] = b"refused 1\n";

fn main() -> io::Result<()> {
    let words: Vec<String> = std::env::args().skip(1).collect();
    match words.iter().map(String::as_str).collect::<Vec<_>>()[..] {
        ["gpscivil", "formats"] => by_formats(civil_formatted),
        ["civilgps", "formats"] => by_formats(gps_formatted),
        ["gpscivil", "digits"] => by_digits(civil_by_digits),
        ["civilgps", "digits"] => by_digits(gps_by_digits),
        ["measure", programs, work] => measure(Path::new(programs), Path::new(work)),
        _ => Err(io::Error::other("streams: run bench/streams")),
    }
}

/// The crate's answers.
fn civil_of(gps: u64) -> Option<CivilDateTime> {
    Some(Time::<Gps>::from_nanos(gps).to_utc().ok()?.to_civil())
}

fn gps_of(civil: CivilDateTime) -> Option<u64> {
    Some(civil.to_utc().ok()?.to_gps().ok()?.as_nanos())
}

/// The standard library's way: a `String` for a line, `parse`, `write!`.
fn by_formats(answer: fn(&str, &mut dyn Write) -> io::Result<()>) -> io::Result<()> {
    let mut input = BufReader::with_capacity(BLOCK, io::stdin().lock());
    let mut out = BufWriter::with_capacity(BLOCK, io::stdout().lock());
    let mut line = String::new();
    while input.read_line(&mut line)? > 0 {
        answer(line.strip_suffix('\n').unwrap_or(&line), &mut out)?;
        line.clear();
    }
    out.flush()
}

fn civil_formatted(line: &str, out: &mut dyn Write) -> io::Result<()> {
    let Ok(gps) = line.parse() else { return out.write_all(BAD_LINE) };
    let Some(c) = civil_of(gps) else { return out.write_all(OVERFLOW) };
    let (date, time) = ((c.year, c.month, c.day), (c.hour, c.minute, c.second));
    write!(out, "{:04}-{:02}-{:02}T", date.0, date.1, date.2)?;
    writeln!(out, "{:02}:{:02}:{:02}.{:09}Z", time.0, time.1, time.2, c.nanos)
}

fn gps_formatted(line: &str, out: &mut dyn Write) -> io::Result<()> {
    let Some(civil) = stamp_parsed(line) else { return out.write_all(BAD_LINE) };
    let Some(gps) = gps_of(civil) else { return out.write_all(OVERFLOW) };
    writeln!(out, "{gps}")
}

fn stamp_parsed(line: &str) -> Option<CivilDateTime> {
    let (date, time) = line.strip_suffix('Z')?.split_once('T')?;
    let mut date = date.split('-');
    let (time, nanos) = time.split_once('.')?;
    let mut time = time.split(':');
    Some(CivilDateTime {
        year: date.next()?.parse().ok()?,
        month: date.next()?.parse().ok()?,
        day: date.next()?.parse().ok()?,
        hour: time.next()?.parse().ok()?,
        minute: time.next()?.parse().ok()?,
        second: time.next()?.parse().ok()?,
        nanos: nanos.parse().ok()?,
    })
}

/// By hand: blocks in and out, lines found in the block, digits one by one.
fn by_digits(answer: fn(&[u8], &mut Vec<u8>)) -> io::Result<()> {
    let (mut input, mut output) = (io::stdin().lock(), io::stdout().lock());
    let mut block = vec![0; BLOCK];
    let mut begun = Vec::new();
    let mut out = Vec::with_capacity(4 * BLOCK);
    loop {
        let read = input.read(&mut block)?;
        if read == 0 {
            break;
        }
        let mut rest = &block[..read];
        while let Some(end) = rest.iter().position(|&byte| byte == b'\n') {
            if begun.is_empty() {
                answer(&rest[..end], &mut out);
            } else {
                begun.extend_from_slice(&rest[..end]);
                answer(&begun, &mut out);
                begun.clear();
            }
            rest = &rest[end + 1..];
        }
        begun.extend_from_slice(rest);
        output.write_all(&out)?;
        out.clear();
    }
    if !begun.is_empty() {
        answer(&begun, &mut out);
    }
    output.write_all(&out)?;
    output.flush()
}

fn number(digits: &[u8]) -> Option<u64> {
    digits.iter().try_fold(0u64, |sum, &byte| {
        let digit = byte.wrapping_sub(b'0');
        if digit > 9 {
            return None;
        }
        sum.checked_mul(10)?.checked_add(u64::from(digit))
    })
}

fn write_digits(mut number: u64, place: &mut [u8]) {
    for byte in place.iter_mut().rev() {
        *byte = b'0' + (number % 10) as u8;
        number /= 10;
    }
}

fn civil_by_digits(line: &[u8], out: &mut Vec<u8>) {
    let count = if (1..=20).contains(&line.len()) { number(line) } else { None };
    let Some(gps) = count else { return out.extend_from_slice(BAD_LINE) };
    let Some(c) = civil_of(gps) else { return out.extend_from_slice(OVERFLOW) };
    let mut stamp = *b"0000-00-00T00:00:00.000000000Z\n";
    write_digits(c.year as u64, &mut stamp[0..4]);
    for (field, at) in [(c.month, 5), (c.day, 8), (c.hour, 11), (c.minute, 14), (c.second, 17)] {
        write_digits(u64::from(field), &mut stamp[at..at + 2]);
    }
    write_digits(u64::from(c.nanos), &mut stamp[20..29]);
    out.extend_from_slice(&stamp);
}

fn gps_by_digits(line: &[u8], out: &mut Vec<u8>) {
    let Some(civil) = stamp_by_digits(line) else { return out.extend_from_slice(BAD_LINE) };
    let Some(gps) = gps_of(civil) else { return out.extend_from_slice(OVERFLOW) };
    let mut digits = [0; 20];
    write_digits(gps, &mut digits);
    let first = digits.iter().position(|&digit| digit != b'0').unwrap_or(19);
    out.extend_from_slice(&digits[first..]);
    out.push(b'\n');
}

fn stamp_by_digits(line: &[u8]) -> Option<CivilDateTime> {
    let marks = [(4, b'-'), (7, b'-'), (10, b'T'), (13, b':'), (16, b':'), (19, b'.'), (29, b'Z')];
    if line.len() != 30 || marks.iter().any(|&(at, mark)| line[at] != mark) {
        return None;
    }
    let two = |at: usize| Some(number(&line[at..at + 2])? as u8);
    Some(CivilDateTime {
        year: number(&line[0..4])? as i32,
        month: two(5)?,
        day: two(8)?,
        hour: two(11)?,
        minute: two(14)?,
        second: two(17)?,
        nanos: number(&line[20..29])? as u32,
    })
}

/// Makes the inputs, holds all outputs to each other, and prints the best of some rounds that are run in turns.
fn measure(programs: &Path, work: &Path) -> io::Result<()> {
    let this = std::env::current_exe()?;
    let (counts, stamps) = (work.join("counts"), work.join("stamps"));
    write_counts(&counts)?;
    run(Command::new(&this).args(["gpscivil", "formats"]), &counts, &stamps)?;
    for (name, input) in [("gpscivil", &counts), ("civilgps", &stamps)] {
        let port = || Command::new(programs.join(name));
        let rust = |manner: &str| {
            let mut command = Command::new(&this);
            command.args([name, manner]);
            command
        };
        let outputs = ["port", "formats", "digits", "cat"].map(|way| work.join(way));
        let mut best = [Duration::MAX; 4];
        for _ in 0..ROUNDS {
            let ways = [port(), rust("formats"), rust("digits"), Command::new("cat")];
            for ((mut way, output), best) in ways.into_iter().zip(&outputs).zip(&mut best) {
                *best = (*best).min(run(&mut way, input, output)?);
            }
        }
        let [by_port, by_formats, by_digits, _] = outputs.map(std::fs::read);
        let (by_port, by_formats, by_digits) = (by_port?, by_formats?, by_digits?);
        if by_port != by_formats || by_port != by_digits {
            return Err(io::Error::other(format!("streams: {name} of the port and of the crate differ")));
        }
        let [port, formats, digits, cat] = best.map(|time| time.as_secs_f64());
        println!("{name}, {LINES} lines: {:.0} ms; cat {:.0} ms", port * 1e3, cat * 1e3);
        println!("  {:.2} of Rust with formats ({:.0} ms)", port / formats, formats * 1e3);
        println!("  {:.2} of Rust with digits by hand ({:.0} ms)", port / digits, digits * 1e3);
    }
    Ok(())
}

/// Whether a GPS count is in an inserted second, where the crate's civil form is not the reading that the port writes, or in
/// the second after it, which the crate does not give back: the count a second later or earlier has the same UTC count.
fn is_repeated(gps: u64) -> bool {
    let utc = |gps| Time::<Gps>::from_nanos(gps).to_utc().ok();
    utc(gps) == utc(gps + SECOND) || gps >= SECOND && utc(gps) == utc(gps - SECOND)
}

/// Counts from 1980 to 2024 without pattern, by a linear congruence with the multiplier of Knuth's MMIX. One in a repeated
/// second is moved two seconds on.
fn write_counts(path: &Path) -> io::Result<()> {
    let mut out = BufWriter::new(File::create(path)?);
    let mut state = 7u64;
    for _ in 0..LINES {
        state = state.wrapping_mul(6_364_136_223_846_793_005).wrapping_add(1_442_695_040_888_963_407);
        let gps = (state >> 3) % 1_400_000_000_000_000_000;
        writeln!(out, "{}", if is_repeated(gps) { gps + 2 * SECOND } else { gps })?;
    }
    out.flush()
}

fn run(command: &mut Command, input: &Path, output: &Path) -> io::Result<Duration> {
    let (input, output) = (File::open(input)?, File::create(output)?);
    let began = Instant::now();
    let status = command.stdin(Stdio::from(input)).stdout(Stdio::from(output)).status()?;
    let took = began.elapsed();
    if status.success() {
        Ok(took)
    } else {
        Err(io::Error::other(format!("streams: {command:?}: {status}")))
    }
}
