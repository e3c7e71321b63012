//! The binary format and base64.

use super::near;
use super::town::Dice;
use crate::measure::Place;
use crate::reference::{LocationPoint, Reference, Way};
use crate::{base64, binary};
use hemokatu::Kind;

#[test]
fn base64_of_bytes() {
    for (bytes, text) in [
        (&b""[..], ""),
        (b"f", "Zg=="),
        (b"fo", "Zm8="),
        (b"foo", "Zm9v"),
        (b"foobar", "Zm9vYmFy"),
    ] {
        assert_eq!(base64::write(bytes), text);
        assert_eq!(base64::read(text).unwrap(), bytes);
        assert_eq!(base64::read(text.trim_end_matches('=')).unwrap(), bytes);
    }
    assert_eq!(
        base64::read("Zm9*").unwrap_err(),
        "'*' at place 3 is no character of base64"
    );
    assert_eq!(
        base64::read("Zm9vY").unwrap_err(),
        "base64 ends in the middle of a byte"
    );
    assert_eq!(
        base64::read("Zh==").unwrap_err(),
        "base64 ends in bits that belong to no byte"
    );
}

/// The example that is often printed for the format; its fields are worked out from its bytes by hand:
/// 0B | 04 5B 5B, 23 46 F5 | 1A 6C 09 | 00 9B, FE 3B | 1B B4 04 | FF EB, FF A3 | 2B 59 | 44.
#[test]
fn a_printed_line() {
    let text = "CwRbWyNG9RpsCQCb/jsbtAT/6/+jK1lE";
    let line = binary::read(&base64::read(text).unwrap()).unwrap();
    assert_eq!((line.kind, line.points.len()), (Kind::Line, 3));
    let [first, middle, last] = &line.points[..] else {
        panic!()
    };
    // 285,530.5 and 2,311,924.5 of 2^24 steps.
    near(first.at.lon, 6.126_820, 1e-6);
    near(first.at.lat, 49.608_518, 1e-6);
    near(middle.at.lon, 6.128_370, 1e-6);
    near(middle.at.lat, 49.603_988, 1e-6);
    near(last.at.lon, 6.128_160, 1e-6);
    near(last.at.lat, 49.603_058, 1e-6);
    let of = |p: &LocationPoint| {
        (
            p.frc,
            p.fow,
            p.bearing,
            p.way.map(|way| (way.lfrcnp, (10.0 * way.dnp_m).round())),
        )
    };
    assert_eq!(of(first), (3, 2, 140.625, Some((3, 5567.0))));
    assert_eq!(of(middle), (3, 3, 230.625, Some((5, 2637.0))));
    assert_eq!(of(last), (5, 3, 286.875, None));
    assert_eq!(
        (line.start_offset, line.end_offset),
        (Some(68.5 / 256.0), None)
    );
    assert_eq!(base64::write(&binary::write(&line).unwrap()), text);
}

/// A point along line with an offset byte and without its flag: read, and written with it.
#[test]
fn a_point_along_line() {
    let bytes = [
        0x2B, 0x04, 0x5B, 0x9F, 0x23, 0x46, 0x7E, 0x52, 0x41, 0x02, 0xFF, 0xCF, 0xFF, 0xB5, 0x92,
        0x00, 0x4C,
    ];
    let point = binary::read(&bytes).unwrap();
    assert_eq!(
        (point.kind, point.orientation, point.side),
        (Kind::PointAlongLine, 1, 2)
    );
    assert_eq!(
        (point.start_offset, point.end_offset),
        (Some(76.5 / 256.0), None)
    );
    let mut flagged = bytes;
    flagged[15] = 0x40;
    assert_eq!(binary::write(&point).unwrap(), flagged);
    assert_eq!(binary::read(&flagged), Ok(point));
    // The flag without the byte.
    assert!(binary::read(&flagged[..16]).is_err());
}

/// Whatever is read is written byte for byte.
#[test]
fn written_as_read() {
    let mut dice = Dice(7);
    for round in 0..3_000 {
        let between = dice.below(5);
        let mut bytes: Vec<u8> = (0..16 + 7 * between)
            .map(|_| dice.below(256) as u8)
            .collect();
        bytes[0] = 0x0B;
        // West to 180 and south to 90 degrees at the most; no steps of 0, which no reading is nearest to.
        bytes[1] |= 1;
        bytes[4] = 1 + dice.below(63) as u8;
        for number in 0..=between {
            bytes[7 + 7 * number] &= 0x3F;
        }
        let last = bytes.len() - 2;
        bytes[last] &= 0x3F;
        bytes[last + 1] &= 0x7F;
        for flag in [0x40, 0x20] {
            if bytes[last + 1] & flag != 0 {
                bytes.push(dice.below(256) as u8);
            }
        }
        let read = binary::read(&bytes).unwrap();
        assert_eq!(read.points.len(), between + 2);
        assert_eq!(binary::write(&read).unwrap(), bytes, "round {round}");
    }
}

/// What is written is read to within half a step.
#[test]
fn read_as_written() {
    let mut dice = Dice(11);
    for _ in 0..3_000 {
        let mut between = |low: f64, high: f64| {
            low + (high - low) * dice.below(1 << 30) as f64 / (1 << 30) as f64
        };
        let mut at = Place {
            lon: between(-179.0, 179.0),
            lat: between(-80.0, 80.0),
        };
        let mut line = Reference::of(Kind::Line);
        for number in 0..4 {
            let way = Way {
                lfrcnp: between(0.0, 8.0) as u8,
                dnp_m: between(0.0, 15_000.0),
            };
            line.points.push(LocationPoint {
                at,
                frc: between(0.0, 8.0) as u8,
                fow: between(0.0, 8.0) as u8,
                bearing: between(0.0, 360.0),
                way: (number < 3).then_some(way),
            });
            at = Place {
                lon: at.lon + between(-0.3, 0.3),
                lat: at.lat + between(-0.3, 0.3),
            };
        }
        line.start_offset = Some(between(0.0, 1.0));
        let read = binary::read(&binary::write(&line).unwrap()).unwrap();
        for (number, (a, b)) in line.points.iter().zip(&read.points).enumerate() {
            let half = if number == 0 {
                180.0 / (1 << 24) as f64
            } else {
                0.5e-5
            };
            near(b.at.lon, a.at.lon, half + 1e-9);
            near(b.at.lat, a.at.lat, half + 1e-9);
            near(b.bearing, a.bearing, 5.625);
            assert_eq!((a.frc, a.fow), (b.frc, b.fow));
            match (a.way, b.way) {
                (Some(a), Some(b)) => {
                    assert_eq!(a.lfrcnp, b.lfrcnp);
                    near(b.dnp_m, a.dnp_m, 29.3);
                }
                (a, b) => assert_eq!(a, b),
            }
        }
        near(
            read.start_offset.unwrap(),
            line.start_offset.unwrap(),
            0.5 / 256.0,
        );
        assert_eq!(read.end_offset, None);
    }
}

#[test]
fn not_read() {
    let line = base64::read("CwRbWyNG9RpsCQCb/jsbtAT/6/+jK1lE").unwrap();
    let with = |at: usize, byte: u8| {
        let mut bytes = line.clone();
        bytes[at] = byte;
        bytes
    };
    for (bytes, error) in [
        (vec![], "no bytes"),
        (with(0, 0x0A), "version 2 instead of 3"),
        (with(0, 0x83), "status byte 0x83 is of no known kind"),
        (line[..15].to_vec(), "15 bytes are too few for a line"),
        (
            line[..23].to_vec(),
            "0 bytes behind the last point, and 1 offsets by its flags",
        ),
        (
            with(22, 0x79),
            "1 bytes behind the last point, and 2 offsets by its flags",
        ),
        (vec![0x2B; 18], "18 bytes are no point along line"),
    ] {
        assert_eq!(binary::read(&bytes).unwrap_err(), error);
    }
    for (status, length, kind) in [
        (0x23, 7, Kind::GeoCoordinate),
        (0x2B, 20, Kind::Poi),
        (0x03, 8, Kind::Circle),
        (0x43, 11, Kind::Rectangle),
        (0x43, 15, Kind::Grid),
        (0x13, 15, Kind::Polygon),
        (0x5B, 20, Kind::ClosedLine),
    ] {
        let mut bytes = vec![0; length];
        bytes[0] = status;
        assert_eq!(binary::read(&bytes), Ok(Reference::of(kind)));
    }
}

#[test]
fn not_written() {
    let line = binary::read(&base64::read("CwRbWyNG9RpsCQCb/jsbtAT/6/+jK1lE").unwrap()).unwrap();
    let changed = |change: fn(&mut Reference)| {
        let mut other = line.clone();
        change(&mut other);
        binary::write(&other).unwrap_err()
    };
    assert_eq!(
        changed(|r| r.kind = Kind::Circle),
        "a circle is not written"
    );
    assert_eq!(changed(|r| r.points.truncate(1)), "1 points are too few");
    assert_eq!(
        changed(|r| r.points[1].at.lon += 0.4),
        "point 1 is too far from the one before"
    );
    assert_eq!(
        changed(|r| r.points[1].way = None),
        "point 1 says nothing of its way"
    );
    assert_eq!(
        changed(|r| r.points[0].way = Some(Way {
            lfrcnp: 3,
            dnp_m: 15_002.0
        })),
        "from point 0 it is too far to the next"
    );
}
