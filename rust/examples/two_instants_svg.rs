//! Draws docs/two-instants.svg: the GPS counts, UTC counts and civil readings of a few seconds, in three lanes over one
//! axis. Two of the seconds share a UTC count; no two share a civil reading. Every label is an answer of the crate.
//! `tools/check-rust` compares what this program writes with the file.

use plaitgate::{CivilDateTime, Error, Gps, Result, Utc};

/// The seconds that are drawn: the last two of 2016 and the first two of 2017.
const FIRST_GPS_SECOND: u64 = 1_167_264_016;
const SECONDS: u64 = 4;

// Lengths are in pixels.
const WIDTH: u64 = 720;
const HEIGHT: u64 = 364;
const MARGIN: u64 = 20;
/// Where the first second begins, right of the names of the lanes.
const LEFT: u64 = 132;
const SECOND_WIDTH: u64 = 140;
const TITLE_LINE: u64 = 36;
const FIRST_LANE: u64 = 58;
const LANE_STEP: u64 = 68;
const BOX_HEIGHT: u64 = 56;
/// Between a box and the end of its second.
const INSET: u64 = 3;
const AXIS: u64 = FIRST_LANE + 3 * LANE_STEP + 6;
const CAPTION_LINES: [u64; 2] = [AXIS + 54, AXIS + 76];

/// The card has a background of its own, so that it can be read on a light page and on a dark one.
const STYLE: &str = "\
text { font: 14px sans-serif; fill: #1f2328 }
.title { font-size: 17px; font-weight: bold }
.lane { font-weight: bold }
.in-box { text-anchor: middle }
.note { font-size: 12px; text-anchor: middle }
.card { fill: #ffffff; stroke: #8b949e }
.plain { fill: #f3f5f7; stroke: #8b949e }
.twice { fill: #ffe3b8; stroke: #9a5b00; stroke-width: 2 }
.inserted { fill: #cfe4ff; stroke: #0a4fa3; stroke-width: 2 }
.axis { fill: none; stroke: #1f2328 }";

/// A second, by its beginning.
struct Second {
    gps: Gps,
    utc: Utc,
    civil: CivilDateTime,
}

/// What a box shows: a label, a note below it, and the class that marks the box.
struct Shown {
    label: String,
    note: String,
    mark: &'static str,
}

fn main() -> Result<()> {
    let drawn = FIRST_GPS_SECOND..FIRST_GPS_SECOND + SECONDS;
    let seconds: Vec<Second> = drawn.map(second_from).collect::<Result<_>>()?;
    println!("{}", picture(&seconds).join("\n"));
    Ok(())
}

fn second_from(gps_seconds: u64) -> Result<Second> {
    let gps = Gps::checked_from_seconds(gps_seconds).ok_or(Error::Overflow)?;
    Ok(Second { gps, utc: gps.to_utc()?, civil: gps.to_civil()? })
}

fn picture(seconds: &[Second]) -> Vec<String> {
    let title = format!("The end of {}: one UTC count, two instants", seconds[0].civil.year);
    let (card_width, card_height) = (WIDTH - 1, HEIGHT - 1);
    let mut lines = vec![
        format!(r#"<svg xmlns="http://www.w3.org/2000/svg" width="{WIDTH}" height="{HEIGHT}""#),
        format!(r#"    viewBox="0 0 {WIDTH} {HEIGHT}" role="img" aria-labelledby="title desc">"#),
        format!(r#"<title id="title">{title}</title>"#),
        format!("<desc id=\"desc\">\n{}\n</desc>", description(seconds).join("\n")),
        format!("<style>\n{STYLE}\n</style>"),
        format!(r#"<rect class="card" x="0.5" y="0.5" width="{card_width}" height="{card_height}" rx="6"/>"#),
        text("title", MARGIN, TITLE_LINE, &title),
    ];
    let lanes =
        [("GPS count", gps_lane(seconds)), ("UTC count", utc_lane(seconds)), ("Civil reading", civil_lane(seconds))];
    let places = (FIRST_LANE..).step_by(LANE_STEP as usize);
    lines.extend(places.zip(&lanes).flat_map(|(top, (name, boxes))| lane(top, name, boxes)));
    lines.extend(axis());
    lines.extend(caption(seconds).iter().zip(CAPTION_LINES).map(|(said, y)| text("said", MARGIN, y, said)));
    lines.push("</svg>".to_string());
    lines
}

/// The picture in words, for those who do not see it.
fn description(seconds: &[Second]) -> Vec<String> {
    let said = |second: &Second| {
        let (gps, utc) = (in_seconds(second.gps.as_seconds()), in_seconds(second.utc.as_seconds()));
        format!("GPS {gps} is UTC {utc} and reads {}T{}.", date(second.civil), time_of_day(second.civil))
    };
    seconds.iter().map(said).collect()
}

fn gps_lane(seconds: &[Second]) -> Vec<Shown> {
    let shown =
        |second: &Second| Shown { label: in_seconds(second.gps.as_seconds()), note: String::new(), mark: "plain" };
    seconds.iter().map(shown).collect()
}

/// A count that stands twice is marked both times.
fn utc_lane(seconds: &[Second]) -> Vec<Shown> {
    let shown = |(place, second): (usize, &Second)| {
        let stands_in = |others: &[Second]| others.iter().any(|other| other.utc == second.utc);
        let (note, mark) = match (stands_in(&seconds[..place]), stands_in(&seconds[place + 1..])) {
            (false, false) => ("", "plain"),
            (false, true) => ("for the first time", "twice"),
            (true, _) => ("once more", "twice"),
        };
        Shown { label: in_seconds(second.utc.as_seconds()), note: note.to_string(), mark }
    };
    seconds.iter().enumerate().map(shown).collect()
}

fn civil_lane(seconds: &[Second]) -> Vec<Shown> {
    let shown = |second: &Second| Shown {
        label: time_of_day(second.civil),
        note: date(second.civil),
        mark: if second.civil.second == 60 { "inserted" } else { "plain" },
    };
    seconds.iter().map(shown).collect()
}

fn lane(top: u64, name: &str, boxes: &[Shown]) -> Vec<String> {
    let middle = top + BOX_HEIGHT / 2 + 5;
    let mut lines = vec![text("lane", MARGIN, middle, name)];
    for (left, shown) in (LEFT..).step_by(SECOND_WIDTH as usize).zip(boxes) {
        let (x, width, center) = (left + INSET, SECOND_WIDTH - 2 * INSET, left + SECOND_WIDTH / 2);
        let mark = shown.mark;
        lines.push(format!(r#"<rect class="{mark}" x="{x}" y="{top}" width="{width}" height="{BOX_HEIGHT}" rx="3"/>"#));
        if shown.note.is_empty() {
            lines.push(text("in-box", center, middle, &shown.label));
        } else {
            lines.push(text("in-box", center, middle - 8, &shown.label));
            lines.push(text("note", center, middle + 11, &shown.note));
        }
    }
    lines
}

/// An arrow, with a tick where each second begins and where the last one ends.
fn axis() -> Vec<String> {
    let end = LEFT + SECONDS * SECOND_WIDTH;
    let ticks: String = (0..=SECONDS).map(|k| format!(" M{} {}v10", LEFT + k * SECOND_WIDTH, AXIS - 5)).collect();
    let tip = end + 16;
    vec![
        text("lane", MARGIN, AXIS + 5, "Time"),
        format!(r#"<path class="axis" d="M{LEFT} {AXIS}H{tip} m-6 -4l6 4l-6 4{ticks}"/>"#),
        text("note", LEFT + SECOND_WIDTH / 2, AXIS + 20, "a second of GPS"),
    ]
}

fn caption(seconds: &[Second]) -> Vec<String> {
    let mut said = vec!["Each box shows the count or the reading at which its second begins.".to_string()];
    for pair in seconds.windows(2).filter(|pair| pair[0].utc == pair[1].utc) {
        let utc = in_seconds(pair[0].utc.as_seconds());
        let (first, later) = (time_of_day(pair[0].civil), time_of_day(pair[1].civil));
        said.push(format!("UTC {utc} is the count of two of them, which read {first} and {later}."));
    }
    said
}

fn text(class: &str, x: u64, y: u64, said: &str) -> String {
    format!(r#"<text class="{class}" x="{x}" y="{y}">{said}</text>"#)
}

fn date(civil: CivilDateTime) -> String {
    format!("{:04}-{:02}-{:02}", civil.year, civil.month, civil.day)
}

fn time_of_day(civil: CivilDateTime) -> String {
    format!("{:02}:{:02}:{:02}", civil.hour, civil.minute, civil.second)
}

/// Seconds with their unit, in groups of three digits.
fn in_seconds(count: u64) -> String {
    let digits = count.to_string();
    let groups: Vec<&str> =
        digits.as_bytes().rchunks(3).rev().filter_map(|group| std::str::from_utf8(group).ok()).collect();
    format!("{} s", groups.join(","))
}
