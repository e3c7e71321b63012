//! Answers to stored sheets: S1 to S4, all that is near S1, and the cases of crate `replay`.

mod common;

use common::{cases, sample};
use hemokatu::{judge, list_text, Decoder, Refusal};

const S1: &str = "path 1
road 700 4059000000000000
length 4049000000000000
start 4039000000000000 3fd0000000000000
end 4039000000000000 3fd0000000000000
primary 700 4049000000000000
";

#[test]
fn marked_sheets() {
    let mut decoder = Decoder::new();
    for (name, expected) in [
        ("s1", S1),
        ("s2", "refused 10 0 1\n"),
        ("s3", "refused 10 0 0\n"),
        ("s4", "refused 8 0 0\n"),
    ] {
        let sheet = sample(name);
        assert_eq!(judge(&sheet), Ok(()), "{name}");
        assert_eq!(list_text(&decoder.decode(&sheet)), expected, "{name}");
    }
}

#[test]
fn every_cut_is_refused() {
    let sheet = sample("s1");
    let mut decoder = Decoder::new();
    for end in 0..sheet.len() {
        let expected = if end < 56 {
            Refusal::Short
        } else {
            Refusal::Layout
        };
        assert_eq!(judge(&sheet[..end]), Err(expected), "{end} bytes");
        assert_eq!(decoder.decode(&sheet[..end]), Err(expected), "{end} bytes");
    }
    let longer = [&sheet[..], &[0]].concat();
    assert_eq!(decoder.decode(&longer), Err(Refusal::Layout));
}

#[test]
fn every_changed_byte_is_answered() {
    let sheet = sample("s1");
    let mut decoder = Decoder::new();
    for at in 0..sheet.len() {
        for value in 0..=255 {
            let mut changed = sheet.clone();
            changed[at] = value;
            match judge(&changed) {
                Err(refusal) => assert_eq!(decoder.decode(&changed), Err(refusal)),
                Ok(()) => {
                    let number = decoder.decode(&changed).map_or_else(|r| r.number(), |_| 0);
                    assert!(number == 0 || number > 6, "byte {at} is {value}");
                }
            }
        }
    }
}

#[test]
fn replayed_cases() {
    let files = cases::files();
    let (mut kept, mut one_slot) = (Decoder::new(), Decoder::with_heap(1));
    let mut compared = 0;
    // Of areas that are too small a decoder has none.
    for case in cases::all(&files).filter(|case| case.number() != 6) {
        let mut limited = Decoder::with_heap_limit(case.heap());
        assert_eq!(list_text(&limited.decode(case.sheet())), case.text());
        let whole = list_text(&kept.decode(case.sheet()));
        if case.number() != 11 {
            assert_eq!(whole, case.text());
        }
        assert_eq!(list_text(&one_slot.decode(case.sheet())), whole);
        compared += 1;
    }
    assert!(compared > 1000, "{compared} cases");
}
