//! Cases with the answers they must have, in the file of crate `replay`; its list.rt and record.rt say what stands where.

use crate::{Answer, Match, Outcome};
use sheets::Areas;

/// The entries that `replay` has for each area.
pub const MOST_ENTRIES: usize = 1024;

/// The bytes of a record.
pub const RECORD: usize = 52;

/// Where a record says that the lists stay untouched.
pub const UNTOUCHED: usize = 50;

#[derive(Debug, Clone, PartialEq)]
pub struct Stored {
    pub bytes: Vec<u8>,
    pub areas: Areas,
    pub expected: Outcome,
}

impl Stored {
    /// A case with what the oracle answers.
    pub fn of(bytes: Vec<u8>, areas: Areas) -> Stored {
        let expected = crate::call(&bytes, &areas);
        Stored {
            bytes,
            areas,
            expected,
        }
    }

    /// Whether `replay` has areas for it.
    pub fn fits(&self) -> bool {
        self.areas.0.iter().all(|size| *size <= MOST_ENTRIES)
    }

    /// What the oracle answers now, where that is something else.
    pub fn differs(&self) -> Option<Outcome> {
        let got = crate::call(&self.bytes, &self.areas);
        (got != self.expected).then_some(got)
    }
}

/// The file of these cases.
pub fn write(cases: &[Stored]) -> Vec<u8> {
    let mut file = (cases.len() as u32).to_le_bytes().to_vec();
    let mut parts: Vec<u8> = vec![];
    let behind = 4 + RECORD * cases.len();
    for case in cases {
        let sheet = behind + parts.len();
        parts.extend(&case.bytes);
        let answer = behind + parts.len();
        let words = words(&case.expected);
        words.iter().for_each(|w| parts.extend(w.to_le_bytes()));
        // A refusal has no answer behind the records.
        let place = if words.is_empty() { 0 } else { answer };
        record(&mut file, case, sheet, place);
    }
    file.extend(parts);
    file
}

fn record(file: &mut Vec<u8>, case: &Stored, sheet: usize, answer: usize) {
    let (number, a, b) = match case.expected.answer {
        Answer::Refused { number, a, b } => (number, a, b),
        Answer::Matched(_) => (0, 0, 0),
    };
    let roads = case.expected.ids.len();
    for v in [sheet, case.bytes.len(), answer, roads, number, a, b] {
        file.extend((v as u32).to_le_bytes());
    }
    for v in case.areas.0.iter().copied() {
        file.extend(u16::try_from(v).expect("a u16").to_le_bytes());
    }
    file.extend((case.expected.untouched() as u16).to_le_bytes());
}

/// The numbers of a match, then id and length of each road. None for a refusal.
fn words(expected: &Outcome) -> Vec<u64> {
    let Answer::Matched(m) = expected.answer else {
        return vec![];
    };
    let mut words = vec![
        m.length,
        m.start_offset,
        m.start_fraction,
        m.end_offset,
        m.end_fraction,
        m.primary,
        m.coverage,
    ];
    let roads = expected.ids.iter().zip(&expected.lengths);
    roads.for_each(|(id, length)| words.extend([id, length]));
    words
}

/// The cases of a file.
pub fn read(file: &[u8]) -> Vec<Stored> {
    (0..u32_at(file, 0))
        .map(|i| case_at(file, 4 + RECORD * i))
        .collect()
}

fn case_at(file: &[u8], at: usize) -> Stored {
    let sheet = u32_at(file, at);
    let case = Stored {
        bytes: file[sheet..sheet + u32_at(file, at + 4)].to_vec(),
        areas: Areas(std::array::from_fn(|i| u16_at(file, at + 28 + 2 * i))),
        expected: expected_at(file, at),
    };
    let untouched = u16_at(file, at + UNTOUCHED);
    assert_eq!(untouched, case.expected.untouched() as usize);
    case
}

fn expected_at(file: &[u8], at: usize) -> Outcome {
    let [place, roads, number, a, b] = std::array::from_fn(|i| u32_at(file, at + 8 + 4 * i));
    if number != 0 {
        return Outcome::refused(number, a, b);
    }
    let word = |i: usize| u64_at(file, place + 8 * i);
    Outcome {
        answer: Answer::Matched(Match {
            count: roads,
            length: word(0),
            start_offset: word(1),
            start_fraction: word(2),
            end_offset: word(3),
            end_fraction: word(4),
            primary: word(5),
            coverage: word(6),
        }),
        ids: (0..roads).map(|i| word(7 + 2 * i)).collect(),
        lengths: (0..roads).map(|i| word(8 + 2 * i)).collect(),
    }
}

fn u16_at(file: &[u8], at: usize) -> usize {
    u16::from_le_bytes(file[at..at + 2].try_into().unwrap()) as usize
}

fn u32_at(file: &[u8], at: usize) -> usize {
    u32::from_le_bytes(file[at..at + 4].try_into().unwrap()) as usize
}

fn u64_at(file: &[u8], at: usize) -> u64 {
    u64::from_le_bytes(file[at..at + 8].try_into().unwrap())
}
