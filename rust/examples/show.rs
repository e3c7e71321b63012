//! Prints a sheet in words: header, settings, points, roads, lists, rows and distances, with the byte where each begins.
//!
//! `cargo run --example show -- FILE` reads a file, `-` standard input. What is wrong with a malformed sheet stands
//! between `>>` and `<<`, with the reason on a line of its own. Ends with 0 for a well-formed sheet, 1 for a malformed
//! one, 2 for one that cannot be read.

use hemokatu::{fields, judge, Field, Kind, Part, Refusal, Value};
use std::collections::{BTreeMap, BTreeSet};
use std::fmt::Write as _;
use std::io::{Read, Write as _};
use std::process::ExitCode;

const USAGE: &str = "usage: show FILE, or show - for standard input";

fn main() -> ExitCode {
    let words: Vec<_> = std::env::args_os().skip(1).collect();
    let [file] = words.as_slice() else {
        eprintln!("{USAGE}");
        return ExitCode::from(2);
    };
    if file == "--help" || file == "-h" {
        println!("{USAGE}");
        return ExitCode::SUCCESS;
    }
    let sheet = match read(file) {
        Ok(sheet) => sheet,
        Err(e) => {
            eprintln!("show: {}: {e}", file.to_string_lossy());
            return ExitCode::from(2);
        }
    };
    // a reader that wants no more, as head, is no fault
    let _ = std::io::stdout().write_all(in_words(&sheet).as_bytes());
    ExitCode::from(judge(&sheet).is_err() as u8)
}

fn read(file: &std::ffi::OsStr) -> std::io::Result<Vec<u8>> {
    if file != "-" {
        return std::fs::read(file);
    }
    let mut sheet = vec![];
    std::io::stdin().read_to_end(&mut sheet)?;
    Ok(sheet)
}

/// What is wrong, by the offset of the field.
type Marks = BTreeMap<usize, String>;

pub fn in_words(sheet: &[u8]) -> String {
    let verdict = judge(sheet);
    let marks = match verdict {
        Ok(()) => Marks::new(),
        Err(refusal) => marks(sheet, refusal),
    };
    let mut text = format!("a sheet of {} bytes", sheet.len());
    let lists = Lists::of(sheet);
    let mut title = String::new();
    let mut why: Vec<&String> = vec![];
    for field in fields(sheet) {
        let mark = marks.get(&field.offset);
        if field.name == "spare byte" && mark.is_none() {
            continue;
        }
        let record = title_of(&field, &lists);
        let begins = record != title;
        if begins {
            end_record(&mut text, &mut why);
            let _ = write!(text, "{record} (byte {}):", field.offset);
            title = record;
        }
        let gap = match form_of(&field) {
            Form::Lines => "\n  ",
            Form::Items if !begins => ", ",
            _ => " ",
        };
        let words = words_of(&field);
        let _ = match mark {
            Some(reason) => {
                why.push(reason);
                write!(text, "{gap}>>{words}<<")
            }
            None => write!(text, "{gap}{words}"),
        };
    }
    end_record(&mut text, &mut why);
    let _ = match verdict {
        Ok(()) => writeln!(text, "well-formed"),
        Err(refusal) => {
            let (a, b) = refusal.places();
            writeln!(
                text,
                "malformed, refused {} {a} {b}: {refusal}",
                refusal.number()
            )
        }
    };
    text
}

/// Ends a record's line, and says what was marked on it.
fn end_record(text: &mut String, why: &mut Vec<&String>) {
    text.push('\n');
    for reason in why.drain(..) {
        let _ = writeln!(text, "  ^ {reason}");
    }
}

/// How the fields of a part are set.
#[derive(PartialEq)]
enum Form {
    /// One on a line.
    Lines,
    /// With names, between commas.
    Items,
    /// Values alone.
    Values,
}

fn form_of(field: &Field) -> Form {
    match field.part {
        Part::Header | Part::Settings => Form::Lines,
        Part::Start { .. }
        | Part::Listed { .. }
        | Part::FromFirst { .. }
        | Part::FromLast { .. }
        | Part::ToGoal { .. } => Form::Values,
        _ => Form::Items,
    }
}

fn title_of(field: &Field, lists: &Lists) -> String {
    match field.part {
        Part::Header => "header".to_string(),
        Part::Settings => "settings".to_string(),
        Part::Road { road, .. } => format!("road {road}"),
        Part::Start { .. } => "lists, where each node's roads begin".to_string(),
        Part::Listed { position } => match lists.node_of(position) {
            Some(node) => format!("lists, roads that leave node {node}"),
            None => "lists, road numbers".to_string(),
        },
        Part::Row {
            point: Some(point),
            row,
            ..
        } => format!("row {row} of point {point}"),
        Part::Row { row, .. } => format!("row {row}, of no point"),
        Part::FromFirst { .. } => "metres from the first point to each node".to_string(),
        Part::FromLast { .. } => "metres from the last point to each node".to_string(),
        Part::Goal { row, .. } => format!("goal row {row}"),
        Part::ToGoal { row, goal, .. } => {
            format!("goal row {row}, metres to node {goal} from each node")
        }
        part => part.to_string(),
    }
}

/// Name, value and unit; of a list the value alone.
fn words_of(field: &Field) -> String {
    let (name, value) = (field.name, field.value);
    if form_of(field) == Form::Values {
        return value.to_string();
    }
    let of = match (name, value) {
        ("kind", Value::Number(number)) => match Kind::of(number as usize) {
            Some(kind) => format!(" ({kind})"),
            None => " (none)".to_string(),
        },
        ("FOW", Value::Number(number)) => match FORMS.get(number as usize) {
            Some(form) => format!(" ({form})"),
            None => String::new(),
        },
        ("LFRCNP", Value::Number(255)) => " (no path entry)".to_string(),
        ("DNP" | "length" | "distance" | "along" | "line length", _) => " m".to_string(),
        ("bearing", _) => "°".to_string(),
        _ => String::new(),
    };
    format!("{name} {value}{of}")
}

/// The forms of way of OpenLR.
const FORMS: [&str; 8] = [
    "undefined",
    "motorway",
    "multiple carriageway",
    "single carriageway",
    "roundabout",
    "traffic square",
    "slip road",
    "other",
];

/// The fields that are wrong. Refusals 2, 3 and 5 name no place, so it is looked for here.
fn marks(sheet: &[u8], refusal: Refusal) -> Marks {
    let mut marks = Marks::new();
    let header = |field: &Field| field.part == Part::Header;
    let counts = |field: &Field| header(field) && (4..24).contains(&field.offset);
    let wrong = |field: &Field| !field.range.has(field.value);
    match refusal {
        Refusal::Counts => mark(&mut marks, sheet, |field| counts(field) && wrong(field)),
        Refusal::Layout => {
            mark(&mut marks, sheet, |field| {
                header(field) && field.offset >= 24 && wrong(field)
            });
            if marks.is_empty() {
                let total = "total length of the header is not the length of the sheet".to_string();
                marks.insert(48, total);
            }
        }
        Refusal::Value { offset } => mark(&mut marks, sheet, |field| {
            field.offset == offset || wrong(field)
        }),
        Refusal::Rules => broken_rules(&mut marks, sheet),
        _ => {}
    }
    marks
}

fn mark(marks: &mut Marks, sheet: &[u8], is_bad: impl Fn(&Field) -> bool) {
    for field in fields(sheet).filter(is_bad) {
        let reason = format!("{field} is {}, and may be {}", field.value, field.range);
        marks.insert(field.offset, reason);
    }
}

/// Places and numbers of what the rules of refusal 5 are about.
#[derive(Default)]
struct Lists {
    roads: usize,
    rows: usize,
    starts: Vec<(usize, usize)>,
    listed: Vec<(usize, usize)>,
    sources: Vec<usize>,
    row_counts: Vec<(usize, usize)>,
    row_roads: Vec<(usize, Option<usize>, usize)>,
    goals: Vec<(usize, usize)>,
}

impl Lists {
    fn of(sheet: &[u8]) -> Lists {
        let mut lists = Lists::default();
        for field in fields(sheet) {
            let Value::Number(number) = field.value else {
                continue;
            };
            let entry = (field.offset, number as usize);
            match (field.part, field.name) {
                (Part::Header, "number of roads") => lists.roads = entry.1,
                (Part::Header, "number of rows") => lists.rows = entry.1,
                (Part::Point { .. }, "row count") => lists.row_counts.push(entry),
                (Part::Road { .. }, "source") => lists.sources.push(entry.1),
                (Part::Start { .. }, _) => lists.starts.push(entry),
                (Part::Listed { .. }, _) => lists.listed.push(entry),
                (Part::Row { point, .. }, "road") => {
                    lists.row_roads.push((entry.0, point, entry.1))
                }
                (Part::Goal { .. }, "node") => lists.goals.push(entry),
                _ => {}
            }
        }
        lists
    }

    /// The node in whose part of the lists a position is; None where the starts tell none.
    fn node_of(&self, position: usize) -> Option<usize> {
        let holds = |pair: &[(usize, usize)]| (pair[0].1..pair[1].1).contains(&position);
        self.starts.windows(2).position(holds)
    }
}

fn broken_rules(marks: &mut Marks, sheet: &[u8]) {
    let lists = Lists::of(sheet);
    let mut before = 0;
    for (node, &(offset, start)) in lists.starts.iter().enumerate() {
        if node == 0 && start != 0 {
            marks.insert(
                offset,
                format!("the first start position is {start}, not 0"),
            );
        } else if start < before {
            marks.insert(
                offset,
                format!("start position {node} is {start}, after {before}"),
            );
        } else if node + 1 == lists.starts.len() && start != lists.roads {
            let roads = lists.roads;
            marks.insert(
                offset,
                format!("the last start position is {start}, and there are {roads} roads"),
            );
        }
        before = start;
    }
    let mut seen = BTreeSet::new();
    for (position, &(offset, road)) in lists.listed.iter().enumerate() {
        let source = lists.sources.get(road).copied();
        let node = lists.node_of(position);
        if !seen.insert(road) {
            marks.insert(offset, format!("road {road} is listed twice"));
        } else if let (Some(source), Some(node)) = (source, node) {
            if source != node {
                let text =
                    format!("road {road} leaves node {source}, and is listed for node {node}");
                marks.insert(offset, text);
            }
        }
    }
    let sum: usize = lists.row_counts.iter().map(|(_, rows)| rows).sum();
    if sum != lists.rows {
        let text = format!(
            "the points' row counts make {sum}, and the number of rows is {}",
            lists.rows
        );
        let counts = lists.row_counts.iter().map(|(offset, _)| *offset);
        // the header's word, where no point has a count
        let places: Vec<usize> = if lists.row_counts.is_empty() {
            vec![16]
        } else {
            counts.collect()
        };
        marks.extend(places.into_iter().map(|offset| (offset, text.clone())));
    }
    for pair in lists.row_roads.windows(2) {
        let ((_, one, before), (offset, other, road)) = (pair[0], pair[1]);
        if one == other && road <= before {
            marks.insert(
                offset,
                format!("road {road} after road {before}: roads rise within a point"),
            );
        }
    }
    for pair in lists.goals.windows(2) {
        let ((_, before), (offset, goal)) = (pair[0], pair[1]);
        if goal <= before {
            marks.insert(
                offset,
                format!("goal node {goal} after {before}: they rise"),
            );
        }
    }
    let goals: BTreeSet<usize> = lists.goals.iter().map(|(_, goal)| *goal).collect();
    for (offset, point, road) in &lists.row_roads {
        let source = lists.sources.get(*road);
        if let Some(source) = source.filter(|node| *point != Some(0) && !goals.contains(node)) {
            marks.insert(
                *offset,
                format!("road {road} leaves node {source}, which has no goal row"),
            );
        }
    }
}
