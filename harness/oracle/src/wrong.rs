//! Cases that expect one thing wrong each, which crate `replay` must notice.

use crate::stored::{write, Stored, RECORD, UNTOUCHED};
use crate::{Answer, Match};

/// The file of wrong cases, from a match of several roads, a refusal that zeroes the lists and one that leaves them untouched. Each case is told by what is wrong in it.
pub fn wrong(
    matched: &Stored,
    zeroed: &Stored,
    untouched: &Stored,
) -> (Vec<&'static str>, Vec<u8>) {
    let mut names = vec![];
    let mut cases = vec![];
    for (name, change) in refusals() {
        names.push(name);
        cases.push(refused(zeroed, change));
    }
    for (name, change) in matches() {
        names.push(name);
        cases.push(with_match(matched, change));
    }
    names.extend(["count", "an id", "a length"]);
    cases.extend([count(matched), id(matched), length(matched)]);
    let behind = cases.len();
    names.extend(["an entry behind the path", "an untouched entry"]);
    cases.extend([matched.clone(), untouched.clone()]);
    let mut file = write(&cases);
    file[4 + RECORD * behind + UNTOUCHED] = 1;
    file[4 + RECORD * (behind + 1) + UNTOUCHED] = 0;
    (names, file)
}

type Refusal = fn(&mut usize, &mut usize, &mut usize);

fn refusals() -> [(&'static str, Refusal); 3] {
    [
        ("number", |number, _, _| *number -= 1),
        ("A", |_, a, _| *a += 1),
        ("B", |_, _, b| *b += 1),
    ]
}

/// The last bit of each number.
fn matches() -> [(&'static str, fn(&mut Match)); 7] {
    [
        ("sum of the legs", |m| m.length ^= 1),
        ("start offset", |m| m.start_offset ^= 1),
        ("start fraction", |m| m.start_fraction ^= 1),
        ("end offset", |m| m.end_offset ^= 1),
        ("end fraction", |m| m.end_fraction ^= 1),
        ("primary road", |m| m.primary ^= 1),
        ("coverage", |m| m.coverage ^= 1),
    ]
}

fn refused(case: &Stored, change: Refusal) -> Stored {
    let mut case = case.clone();
    let Answer::Refused { number, a, b } = &mut case.expected.answer else {
        panic!("no refusal");
    };
    change(number, a, b);
    case
}

fn with_match(case: &Stored, change: fn(&mut Match)) -> Stored {
    let mut case = case.clone();
    let Answer::Matched(m) = &mut case.expected.answer else {
        panic!("no match");
    };
    change(m);
    case
}

/// A road more, with the zeros that stand behind the path: the lists are right.
fn count(case: &Stored) -> Stored {
    let mut case = case.clone();
    case.expected.ids.push(0);
    case.expected.lengths.push(0);
    case
}

/// The last road's.
fn id(case: &Stored) -> Stored {
    let mut case = case.clone();
    *case.expected.ids.last_mut().expect("a road") ^= 1;
    case
}

fn length(case: &Stored) -> Stored {
    let mut case = case.clone();
    *case.expected.lengths.last_mut().expect("a road") ^= 1;
    case
}
