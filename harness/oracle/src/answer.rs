//! Answers, and the text that `roadlist` prints for them.

use std::fmt::Write;

/// What an accepted call returns, but for the path itself. Every f64 by its bits, as it is compared.
#[derive(Debug, Clone, Copy, PartialEq, Eq)]
pub struct Match {
    pub count: usize,
    pub length: u64,
    pub start_offset: u64,
    pub start_fraction: u64,
    pub end_offset: u64,
    pub end_fraction: u64,
    pub primary: u64,
    pub coverage: u64,
}

#[derive(Debug, Clone, Copy, PartialEq, Eq)]
pub enum Answer {
    Refused { number: usize, a: usize, b: usize },
    Matched(Match),
}

impl Answer {
    pub fn refused(number: usize, a: usize, b: usize) -> Answer {
        Answer::Refused { number, a, b }
    }

    /// The refusal's number, 0 for a match.
    pub fn number(&self) -> usize {
        match self {
            Answer::Refused { number, .. } => *number,
            Answer::Matched(_) => 0,
        }
    }
}

/// The answer and the path in the answer lists; zeros stand behind it unless the lists stay untouched.
#[derive(Debug, Clone, PartialEq, Eq)]
pub struct Outcome {
    pub answer: Answer,
    pub ids: Vec<u64>,
    pub lengths: Vec<u64>,
}

impl Outcome {
    pub fn refused(number: usize, a: usize, b: usize) -> Outcome {
        Outcome {
            answer: Answer::refused(number, a, b),
            ids: vec![],
            lengths: vec![],
        }
    }

    /// Refusals 1 to 6 leave both lists as they were.
    pub fn untouched(&self) -> bool {
        (1..=6).contains(&self.answer.number())
    }

    /// What `roadlist` prints.
    pub fn text(&self) -> String {
        let mut out = String::new();
        let _ = match &self.answer {
            Answer::Refused { number, a, b } => writeln!(out, "refused {number} {a} {b}"),
            Answer::Matched(m) => self.write_match(m, &mut out),
        };
        out
    }

    fn write_match(&self, m: &Match, out: &mut String) -> std::fmt::Result {
        writeln!(out, "path {}", m.count)?;
        for (id, length) in self.ids.iter().zip(&self.lengths) {
            writeln!(out, "road {id} {length:016x}")?;
        }
        writeln!(out, "length {:016x}", m.length)?;
        writeln!(
            out,
            "start {:016x} {:016x}",
            m.start_offset, m.start_fraction
        )?;
        writeln!(out, "end {:016x} {:016x}", m.end_offset, m.end_fraction)?;
        writeln!(out, "primary {} {:016x}", m.primary, m.coverage)
    }
}
