//! What the command line takes.

use crate::arguments::{Arguments, Source};
use crate::encode::Location;

fn parse(line: &str) -> Result<Option<Arguments>, String> {
    Arguments::parse(line.split_whitespace().map(str::to_string))
}

#[test]
fn taken() {
    assert!(parse("--from 1 --help").unwrap().is_none());
    let all = parse("--from 12 --to 87 --offset 30 --closed 101,102 --svg a.svg --zoom")
        .unwrap()
        .unwrap();
    let line = Location::Line {
        start_m: 30.0,
        end_m: 0.0,
    };
    assert!(matches!(all.source, Source::Nodes { from: 12, to: 87, location } if location == line));
    assert!(all.closed.into_iter().eq([101, 102]) && all.zoom && !all.back && !all.whole);
    let read = parse("--last-bearing back --reference Cw== --whole")
        .unwrap()
        .unwrap();
    assert!(
        matches!(read.source, Source::Reference(base64) if base64 == "Cw==")
            && read.back
            && read.whole
    );
}

#[test]
fn refused() {
    for (line, error) in [
        ("", "give either --from and --to"),
        ("--from 1", "give either --from and --to"),
        (
            "--from 1 --to 2 --reference Cw==",
            "give either --from and --to",
        ),
        ("--reference Cw== --point 5", "give either --from and --to"),
        ("--from x --to 2", "--from: \"x\" is no number"),
        ("--from", "--from needs a value"),
        (
            "--from 1 --to 2 --point 5 --offset 2",
            "--point goes with neither",
        ),
        ("--from 1 --to 2 --offset -2", "--offset: -2 is below 0"),
        ("--from 1 --to 2 --offset nan", "--offset: NaN is below 0"),
        ("--closed 1,,2", "--closed: \"\" is no number"),
        ("--last-bearing north", "--last-bearing is travel or back"),
        ("--form 1", "\"--form\" is not known"),
    ] {
        let found = parse(line).err().unwrap_or_default();
        assert!(found.starts_with(error), "{line}: {found:?}");
    }
}
