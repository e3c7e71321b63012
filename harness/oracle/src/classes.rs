//! What a case shows, in words. The sample has a case of every class.

use crate::judge::{broken_rule, word, wrong_layout, Head, LIMITS};
use crate::stored::Stored;
use crate::{Answer, Decoded};
use sheets::{areas, Areas, Sheet};

/// The classes of a case whose sheet is of this family.
pub fn classes(family: &str, case: &Stored) -> Vec<String> {
    let (number, a) = match case.expected.answer {
        Answer::Refused { number, a, .. } => (number, a),
        Answer::Matched(_) => return matched(family, case),
    };
    let bytes = &case.bytes;
    let why = match number {
        1 => vec![format!("{} whole words", bytes.len() / 4)],
        2 => vec![count(&Head::of(bytes))],
        3 => layout(bytes),
        4 => vec![field(bytes, a)],
        5 => vec![broken_rule(bytes, &Head::of(bytes)).unwrap().to_string()],
        6 => vec![short_area(bytes, &case.areas)],
        7 => vec![format!("kind {a}")],
        8 => vec![family.to_string()],
        _ => unmatched(family, case, a),
    };
    let refused = |w: &String| format!("refused {number}, {w}");
    why.iter().map(refused).collect()
}

/// The count above its limit, by one or by more.
fn count(h: &Head) -> String {
    const NAMES: [&str; 5] = ["points", "nodes", "roads", "rows", "goal rows"];
    let counts = h.counts();
    match (0..5).find(|i| counts[*i] > LIMITS[*i]) {
        Some(i) if counts[i] == LIMITS[i] + 1 => format!("{} {}", counts[i], NAMES[i]),
        Some(i) => format!("more {}", NAMES[i]),
        None if h.points > 3 => "point along line of more points".to_string(),
        None => format!("point along line, P = {}", h.points),
    }
}

/// What is wrong in the header, alone or with others behind it; and counts that are just allowed.
fn layout(bytes: &[u8]) -> Vec<String> {
    let h = Head::of(bytes);
    let wrong = wrong_layout(bytes, &h);
    let others = if wrong.len() > 1 { " and others" } else { "" };
    let mut all = vec![format!("{}{others}", wrong[0])];
    let at_limit = (0..5).filter(|i| h.counts()[*i] == LIMITS[*i]);
    all.extend(at_limit.map(|i| format!("count {i} at its limit")));
    all
}

/// The field at A: its section, the first record or a later one, its place in the record, and of an f64 what is wrong with it.
fn field(bytes: &[u8], a: usize) -> String {
    let h = Head::of(bytes);
    let [settings, points, roads, lists, rows, distances, _] = h.sections();
    let (last, goals) = (distances + 8 * h.nodes, distances + 16 * h.nodes);
    // Name, start, size of a record, and the f64s of it.
    let sections = [
        ("kind", 0, settings, 0..0),
        ("settings", settings, 112, 0..104),
        ("point", points, 24, 0..8),
        ("road", roads, 32, 8..16),
        ("listed road", lists + 4 * (h.nodes + 1), 4, 0..0),
        ("row", rows, 40, 8..40),
        ("distance from the first point", distances, 8, 0..8),
        ("distance from the last point", last, 8, 0..8),
        ("goal row", goals, 8 + 8 * h.nodes, 8..8 + 8 * h.nodes),
    ];
    let (name, start, size, floats) = sections.into_iter().rfind(|s| s.1 <= a).unwrap();
    let (record, offset) = ((a - start) / size, (a - start) % size);
    let later = if record > 0 { "later " } else { "" };
    let place = match name {
        "goal row" => offset.min(16),
        _ => offset,
    };
    let fault = match () {
        _ if !floats.contains(&offset) => "",
        _ if name == "point" && bytes[a + 12] == 255 => ", without a path",
        _ => fault(bytes, a),
    };
    format!("{later}{name} + {place}{fault}")
}

/// What is wrong with the f64 at A.
fn fault(bytes: &[u8], a: usize) -> &'static str {
    let value = f64::from_le_bytes(bytes[a..a + 8].try_into().unwrap());
    match value.to_bits() >> 63 {
        1 => ", sign",
        _ if value.is_nan() => ", NaN",
        _ => ", too large",
    }
}

/// The first area that is too small, by one or by more.
fn short_area(bytes: &[u8], given: &Areas) -> String {
    let least = Areas::least(word(bytes, 4), word(bytes, 8), 1);
    let short = (0..11).find(|i| given.0[*i] < least.0[*i]).unwrap();
    let by = match least.0[short] - given.0[short] {
        1 => "one",
        _ => "more",
    };
    format!("{} short by {by}", areas::NAMES[short])
}

/// Refusals 9 to 11: the family, the place, the reference's kind, snapping, the heap.
fn unmatched(family: &str, case: &Stored, a: usize) -> Vec<String> {
    let sheet = Sheet::read(&case.bytes);
    let mut all = vec![
        format!("{family}, {} legs", legs(&sheet).min(2)),
        format!("at {}", a.min(4)),
        format!("kind {}", sheet.kind),
        format!("snapping {}", sheet.settings.snap),
    ];
    if let Some(heap) = heap(&sheet, case) {
        all.push(format!("{family}, heap {heap}"));
    }
    all
}

fn matched(family: &str, case: &Stored) -> Vec<String> {
    let sheet = Sheet::read(&case.bytes);
    let (legs, roads) = (legs(&sheet), case.expected.ids.len());
    let least = Areas::least(sheet.points.len(), sheet.nodes, case.areas.heap());
    let mut all = vec![
        format!("{family}, {} legs, {} roads", legs.min(2), roads.min(3)),
        format!("{legs} legs"),
        format!("{} roads", roads.min(10)),
        format!("kind {}, snapping {}", sheet.kind, sheet.settings.snap),
    ];
    if let Some(heap) = heap(&sheet, case) {
        all.push(format!("{family}, heap {heap}"));
    }
    if case.areas == least {
        all.push("least areas".to_string());
    }
    all.iter().map(|w| format!("matched, {w}")).collect()
}

fn legs(sheet: &Sheet) -> usize {
    sheet.points.len().saturating_sub(1)
}

/// Whether the heap just fits the largest search or is one slot short.
fn heap(sheet: &Sheet, case: &Stored) -> Option<&'static str> {
    let most = Decoded::of(sheet).most_entries();
    match case.areas.heap() {
        slots if most > 1 && slots == most => Some("just fits"),
        slots if most > 1 && slots + 1 == most => Some("one slot short"),
        _ => None,
    }
}
