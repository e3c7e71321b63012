//! The areas: kept, grown, and without a part in the answer.

mod common;

use common::samples::misleading;
use common::{chain, s1, sample};
use hemokatu::{list_text, Decoder, Match, Metrics, Refusal, Sizes};

fn send<T: Send + 'static>() {}

#[test]
fn a_decoder_goes_to_another_thread() {
    send::<Decoder>();
    send::<Match<'static>>();
    send::<Refusal>();
}

#[test]
fn earlier_sheets_have_no_part() {
    let mut sheets: Vec<Vec<u8>> = ["s1", "s2", "s3", "s4"].map(sample).to_vec();
    sheets.extend([3, 40, 1000, 5].map(|roads| chain(roads).build().unwrap()));
    let alone = |sheet: &Vec<u8>| list_text(&Decoder::new().decode(sheet));
    let expected: Vec<String> = sheets.iter().map(alone).collect();
    let mut kept = Decoder::new();
    for first in 0..sheets.len() {
        for second in 0..sheets.len() {
            for i in [first, second] {
                assert_eq!(
                    list_text(&kept.decode(&sheets[i])),
                    expected[i],
                    "{first} {second}"
                );
            }
        }
    }
}

#[test]
fn threads_with_a_decoder_each() {
    let sheets = [3, 200, 17].map(|roads| chain(roads).build().unwrap());
    let all = || {
        let mut decoder = Decoder::new();
        sheets
            .each_ref()
            .map(|sheet| list_text(&decoder.decode(sheet)))
    };
    let answers = std::thread::scope(|scope| {
        let threads: Vec<_> = (0..4).map(|_| scope.spawn(all)).collect();
        let join = |thread: std::thread::ScopedJoinHandle<'_, _>| thread.join().unwrap();
        threads.into_iter().map(join).collect::<Vec<_>>()
    });
    assert!(answers.iter().all(|answer| *answer == all()));
}

#[test]
fn the_heap_grows() {
    let sheet = chain(1000).build().unwrap();
    let mut large = Decoder::new();
    let mut grown = Decoder::with_heap(1);
    let found = grown.decode(&sheet).unwrap();
    assert_eq!(found, large.decode(&sheet).unwrap());
    // Half a road at either end is too little of this leg to be kept.
    assert!(found.ids.iter().copied().eq(701..1699));
    assert!(grown.heap() > 1);
}

#[test]
fn the_heap_has_a_limit() {
    let sheet = chain(3).build().unwrap();
    let refused = Err(Refusal::HeapUsedUp { leg: 0 });
    assert_eq!(Decoder::with_heap_limit(1).decode(&sheet), refused);
    assert_eq!(Decoder::with_heap_limit(0).decode(&sheet), refused);
    assert!(Decoder::with_heap_limit(2).decode(&sheet).is_ok());
    assert_eq!(Decoder::with_heap_limit(2).heap(), 2);
    assert_eq!(Decoder::with_heap(0).heap(), 1);
}

#[test]
fn a_search_that_is_misled_gets_a_larger_heap() {
    let first = Decoder::new().heap();
    for (turns, bytes, doublings) in [(12, 2496, 2), (18, 3480, 8)] {
        let sheet = misleading(turns).build().unwrap();
        assert_eq!(sheet.len(), bytes);
        let mut decoder = Decoder::new();
        assert_eq!(decoder.decode(&sheet).unwrap().ids, [701]);
        let before = first << (doublings - 1);
        assert!(decoder.heap() > before);
        let refused = Err(Refusal::HeapUsedUp { leg: 0 });
        assert_eq!(Decoder::with_heap_limit(before).decode(&sheet), refused);
    }
}

#[test]
fn hostile_headers_are_refused() {
    let mut decoder = Decoder::new();
    assert_eq!(decoder.decode(&[]), Err(Refusal::Short));
    assert_eq!(decoder.decode(&[255; 55]), Err(Refusal::Short));
    assert_eq!(decoder.decode(&[255; 56]), Err(Refusal::Counts));
    let mut large = s1().build().unwrap();
    for (at, count) in [(4, 16u32), (8, 1024), (12, 4096), (16, 1024), (20, 1024)] {
        large[at..at + 4].copy_from_slice(&count.to_le_bytes());
    }
    assert_eq!(decoder.decode(&large), Err(Refusal::Layout));
}

#[test]
fn sizes() {
    let full = Sizes::of(16, 1024).unwrap();
    assert_eq!((full.node, full.list), (1024, 20 * 1025));
    let first_heap = Decoder::new().heap();
    assert_eq!(full.bytes(first_heap), 811_680);
    assert_eq!(Sizes::of(2, 100).unwrap().bytes(first_heap), 152_896);
    assert_eq!(Sizes::of(0, 0).unwrap().list, 4);
    assert_eq!(Sizes::of(17, 0), None);
    assert_eq!(Sizes::of(0, 1025), None);
    assert_eq!(Sizes::of(usize::MAX, usize::MAX), None);
}

#[test]
fn areas_are_given_back() {
    let mut decoder = Decoder::with_heap(10);
    assert_eq!(decoder.bytes(), 0);
    let sheet = misleading(12).build().unwrap();
    let found = list_text(&decoder.decode(&sheet));
    let (heap, bytes) = (decoder.heap(), decoder.bytes());
    assert!(heap > 10_000);
    let sizes = Sizes::of(2, 28).unwrap();
    assert_eq!(bytes, sizes.bytes(heap));
    decoder.shrink();
    assert_eq!((decoder.heap(), decoder.bytes()), (10, 0));
    assert_eq!(list_text(&decoder.decode(&sheet)), found);
    assert_eq!((decoder.heap(), decoder.bytes()), (heap, bytes));
}

#[test]
fn answers_are_counted() {
    let mut decoder = Decoder::with_heap_limit(2);
    for (name, times) in [("s1", 3), ("s2", 2), ("s4", 1)] {
        for _ in 0..times {
            let _ = decoder.decode(&sample(name));
        }
    }
    let _ = decoder.decode(&[]);
    let _ = decoder.decode(&misleading(3).build().unwrap());
    let metrics = decoder.metrics();
    assert_eq!((metrics.calls, metrics.matches), (8, 3));
    let expected = [1, 0, 0, 0, 0, 0, 0, 1, 0, 2, 1];
    assert!(metrics.refusals().eq((1..=11).zip(expected)));
    assert_eq!((metrics.refused(10), metrics.refused(11)), (2, 1));
    assert_eq!((metrics.refused(0), metrics.refused(12)), (0, 0));
    assert_eq!(metrics.heap_doublings, 0);

    assert_eq!(decoder.take_metrics(), metrics);
    assert_eq!(decoder.metrics(), Metrics::default());
    let mut sum = metrics;
    sum += metrics;
    assert_eq!((sum.calls, sum.matches, sum.refused(8)), (16, 6, 2));

    let mut grown = Decoder::with_heap(1);
    assert!(grown.decode(&chain(3).build().unwrap()).is_ok());
    assert_eq!(grown.heap(), 1 << grown.metrics().heap_doublings);
    assert_eq!(grown.metrics().calls, 1);
}
