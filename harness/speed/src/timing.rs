//! The time of a sheet's calls.

use compare::port::Port;
use openlr_decoder::decoder::Decoder;
use oracle::{lend_reference, Decoded, Original};
use sheets::{Areas, Sheet};
use std::hint::black_box;
use std::time::Instant;

const ROUNDS: usize = 25;

/// A round of one program lasts at least this many microseconds.
const ROUND: f64 = 20.0;

/// Microseconds of a call.
#[derive(Clone, Copy)]
pub struct Time {
    pub best: f64,
    pub median: f64,
}

impl Time {
    fn of(mut rounds: Vec<f64>) -> Time {
        rounds.sort_by(f64::total_cmp);
        Time {
            best: rounds[0],
            median: rounds[rounds.len() / 2],
        }
    }
}

pub struct Spent {
    pub original: Time,
    /// The original, and two lists as long as the port's zeroed behind it.
    pub with_lists: Time,
    /// The whole call of the port.
    pub port: Time,
    pub judge: Time,
}

impl Spent {
    /// The port's call but for the judge, which the original has not.
    pub fn decode(&self) -> Time {
        Time {
            best: self.port.best - self.judge.best,
            median: self.port.median - self.judge.median,
        }
    }
}

/// Microseconds of each of `calls` calls. One before them is not timed, so that what ran last has no part in them.
fn clock(calls: usize, mut call: impl FnMut()) -> f64 {
    call();
    let start = Instant::now();
    for _ in 0..calls {
        call();
    }
    start.elapsed().as_secs_f64() * 1e6 / calls as f64
}

/// A sheet for both programs, with areas that just fit.
struct Both<'a> {
    sheet: &'a Sheet,
    bytes: Vec<u8>,
    areas: Areas,
    port: Port,
    ids: Vec<u64>,
    lengths: Vec<f64>,
}

impl<'a> Both<'a> {
    /// Both give the same answer.
    fn of(sheet: &'a Sheet) -> Both<'a> {
        let searched = Decoded::of(sheet);
        let heap = searched.most_entries() + 1;
        let areas = Areas::least(sheet.points.len(), sheet.nodes, heap);
        let bytes = sheet.bytes();
        let mut port = Port::new();
        assert_eq!(port.call(&bytes, &areas), Ok(searched.with_heap(heap)));
        Both {
            sheet,
            bytes,
            areas,
            port,
            ids: vec![1; areas.lists()],
            lengths: vec![1.0; areas.lists()],
        }
    }

    fn original(&self, decoder: &Decoder, calls: usize) -> f64 {
        lend_reference(self.sheet, calls + 1);
        counted_std::take_searches();
        clock(calls, || {
            let _ = black_box(decoder.decode(""));
        })
    }

    fn with_lists(&mut self, decoder: &Decoder, calls: usize) -> f64 {
        lend_reference(self.sheet, calls + 1);
        counted_std::take_searches();
        clock(calls, || {
            let _ = black_box(decoder.decode(""));
            black_box(&mut self.ids).fill(0);
            black_box(&mut self.lengths).fill(0.0);
        })
    }

    fn port(&mut self, calls: usize) -> f64 {
        clock(calls, || {
            black_box(self.port.number(&self.bytes, &self.areas));
        })
    }

    fn judge(&self, calls: usize) -> f64 {
        clock(calls, || {
            black_box(self.port.judge(&self.bytes));
        })
    }
}

/// Two calls of each beside the one to compare them; the first of the two is `clock`'s own.
pub fn twice(sheet: &Sheet) {
    let mut both = Both::of(sheet);
    both.original(&Original::of(sheet).decoder(), 1);
    both.port(1);
    both.judge(1);
}

pub fn timed(sheet: &Sheet) -> Spent {
    let mut both = Both::of(sheet);
    let original = Original::of(sheet);
    let decoder = original.decoder();
    let calls = [both.original(&decoder, 2), both.port(2), both.judge(2)];
    let calls = calls.map(|once| (ROUND / once).ceil() as usize);
    let mut spent = [vec![], vec![], vec![], vec![]];
    for _ in 0..ROUNDS {
        spent[0].push(both.original(&decoder, calls[0]));
        spent[1].push(both.port(calls[1]));
        spent[2].push(both.judge(calls[2]));
        spent[3].push(both.with_lists(&decoder, calls[0]));
    }
    let [original, port, judge, with_lists] = spent.map(Time::of);
    Spent {
        original,
        with_lists,
        port,
        judge,
    }
}
