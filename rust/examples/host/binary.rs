//! The binary format, version 3: line and point along line, read and written.
//!
//! ```text
//! status     0, ArF1, point, ArF0, attributes, version (3 bits)     0x0B line, 0x2B point along line
//! first      longitude, latitude: 24 bits each, in 360/2^24 degrees
//!            orientation or 0 (2 bits), FRC (3), FOW (3) | LFRCNP (3), sector (5) | DNP (8)
//! between    differences to the point before: 16 bits each, in 1e-5 degrees; attributes as above
//! last       differences; side or 0 (2), FRC (3), FOW (3) | 0, start offset?, end offset?, sector (5)
//! offsets    start (8), end (8), as the two flags say
//! ```
//!
//! The White Paper was not at hand: this layout is from memory. Reading the example that is often printed for it,
//! `CwRbWyNG9RpsCQCb/jsbtAT/6/+jK1lE`, gives sensible values in every field (tests/format.rs). Less certain are:
//! - the flag for the offset of a point along line. Some references have the byte without the flag, so the length alone
//!   tells whether it is there; the writer sets the flag;
//! - which of side and orientation stands at which point. The original reads neither;
//! - the status bytes of the kinds that are not decoded. They only tell a refusal which kind it is.

use crate::measure::Place;
use crate::reference::{LocationPoint, Reference, Way};
use hemokatu::Kind;

const VERSION: u8 = 3;
const STEP: f64 = 360.0 / (1 << 24) as f64;
const SMALL_STEP: f64 = 1e-5;
/// Degrees of one sector of a bearing.
const SECTOR: f64 = 11.25;
/// Metres of one interval of a distance to the next point.
const INTERVAL_M: f64 = 58.6;
const START_FLAG: u8 = 0x40;
const END_FLAG: u8 = 0x20;

pub fn read(bytes: &[u8]) -> Result<Reference, String> {
    let status = *bytes.first().ok_or("no bytes")?;
    if status & 7 != VERSION {
        return Err(format!("version {} instead of {VERSION}", status & 7));
    }
    let kind = kind(status, bytes.len())?;
    let mut reference = Reference::of(kind);
    let between = match (kind, bytes.len()) {
        (Kind::Line, length @ 16..) => (length - 16) / 7,
        (Kind::PointAlongLine, 16..=17) => 0,
        (Kind::Line, length) => return Err(format!("{length} bytes are too few for a line")),
        (Kind::PointAlongLine, length) => {
            return Err(format!("{length} bytes are no point along line"))
        }
        _ => return Ok(reference),
    };
    let mut rest = Bytes(&bytes[1..]);
    let mut at = Place {
        lon: degrees(rest.signed(3)),
        lat: degrees(rest.signed(3)),
    };
    for number in 0..=between {
        if number > 0 {
            at = rest.moved(at);
        }
        let (top, lfrcnp, mut point) = rest.point(at);
        let dnp_m = (rest.byte() as f64 + 0.5) * INTERVAL_M;
        point.way = Some(Way { lfrcnp, dnp_m });
        if number == 0 {
            reference.orientation = top;
        }
        reference.points.push(point);
    }
    at = rest.moved(at);
    let (side, flags, last) = rest.point(at);
    reference.side = side;
    reference.points.push(last);
    let flagged = |flag| flags << 5 & flag != 0;
    let wanted = match kind {
        Kind::PointAlongLine => [rest.0.len() == 1 || flagged(START_FLAG), false],
        _ => [flagged(START_FLAG), flagged(END_FLAG)],
    };
    let count = wanted.iter().filter(|wanted| **wanted).count();
    if rest.0.len() != count {
        return Err(format!(
            "{} bytes behind the last point, and {count} offsets by its flags",
            rest.0.len()
        ));
    }
    let mut offset = |wanted: bool| wanted.then(|| (rest.byte() as f64 + 0.5) / 256.0);
    reference.start_offset = offset(wanted[0]);
    reference.end_offset = offset(wanted[1]);
    Ok(reference)
}

/// The kind by the status byte, and by the length where two kinds share one.
fn kind(status: u8, length: usize) -> Result<Kind, String> {
    Ok(match (status >> 3, length) {
        (0b00001, _) => Kind::Line,
        (0b00101, 20..=21) => Kind::Poi,
        (0b00101, _) => Kind::PointAlongLine,
        (0b00100, _) => Kind::GeoCoordinate,
        (0b00000, _) => Kind::Circle,
        (0b01000, 11 | 13) => Kind::Rectangle,
        (0b01000, _) => Kind::Grid,
        (0b00010, _) => Kind::Polygon,
        (0b01011, _) => Kind::ClosedLine,
        _ => return Err(format!("status byte 0x{status:02X} is of no known kind")),
    })
}

/// What is left to read; its callers have counted.
struct Bytes<'a>(&'a [u8]);

impl Bytes<'_> {
    fn byte(&mut self) -> u8 {
        let (first, rest) = self.0.split_first().expect("the bytes were counted");
        self.0 = rest;
        *first
    }

    /// A big-endian number of so many bytes in two's complement.
    fn signed(&mut self, bytes: u32) -> i32 {
        let number = (0..bytes).fold(0, |n, _| n << 8 | self.byte() as u32);
        let spare = 32 - 8 * bytes;
        (number << spare) as i32 >> spare
    }

    fn moved(&mut self, from: Place) -> Place {
        let (lon, lat) = (self.signed(2), self.signed(2));
        Place {
            lon: from.lon + lon as f64 * SMALL_STEP,
            lat: from.lat + lat as f64 * SMALL_STEP,
        }
    }

    /// The two bits above the classes, the three above the sector, and the point. A bearing is the middle of its sector.
    fn point(&mut self, at: Place) -> (u8, u8, LocationPoint) {
        let (classes, sector) = (self.byte(), self.byte());
        let point = LocationPoint {
            at,
            frc: classes >> 3 & 7,
            fow: classes & 7,
            bearing: ((sector & 31) as f64 + 0.5) * SECTOR,
            way: None,
        };
        (classes >> 6, sector >> 5, point)
    }
}

fn degrees(number: i32) -> f64 {
    (number as f64 - 0.5 * number.signum() as f64) * STEP
}

/// The number whose reading is nearest. The White Paper is remembered to round half a step farther from it; a reader cannot tell.
fn steps(degrees: f64) -> i32 {
    ((degrees.abs() / STEP).floor() as i32 + 1).min(1 << 23) * if degrees < 0.0 { -1 } else { 1 }
}

/// The bytes of a line or a point along line, or why it cannot be written.
/// Each point's difference is taken from where a reader sees the point before, so that errors do not add up.
pub fn write(reference: &Reference) -> Result<Vec<u8>, String> {
    let (status, top) = match reference.kind {
        Kind::Line => (0x0B, [0, 0]),
        Kind::PointAlongLine => (0x2B, [reference.orientation, reference.side]),
        kind => return Err(format!("a {kind} is not written")),
    };
    let [first, .., last] = &reference.points[..] else {
        return Err(format!("{} points are too few", reference.points.len()));
    };
    let mut bytes = vec![status];
    let absolute = [steps(first.at.lon), steps(first.at.lat)];
    for number in absolute {
        bytes.extend(&number.min((1 << 23) - 1).to_be_bytes()[1..]);
    }
    let mut seen = Place {
        lon: degrees(absolute[0]),
        lat: degrees(absolute[1]),
    };
    for (number, point) in reference.points.iter().enumerate() {
        if number > 0 {
            seen = write_moved(&mut bytes, number, seen, point.at)?;
        }
        let is_last = number + 1 == reference.points.len();
        let top = match number {
            0 => top[0],
            _ if is_last => top[1],
            _ => 0,
        };
        bytes.push(top << 6 | point.frc << 3 | point.fow);
        if !is_last {
            let way = point
                .way
                .ok_or(format!("point {number} says nothing of its way"))?;
            let interval = (way.dnp_m / INTERVAL_M) as usize;
            let interval = u8::try_from(interval)
                .map_err(|_| format!("from point {number} it is too far to the next"))?;
            bytes.extend([way.lfrcnp << 5 | sector(point.bearing), interval]);
        }
    }
    let offsets = [
        (reference.start_offset, START_FLAG),
        (reference.end_offset, END_FLAG),
    ];
    let flags = offsets
        .iter()
        .map(|(offset, flag)| offset.map_or(0, |_| *flag));
    bytes.push(flags.sum::<u8>() | sector(last.bearing));
    bytes.extend(
        offsets
            .iter()
            .filter_map(|(offset, _)| offset.map(|part| (part * 256.0) as u8)),
    );
    Ok(bytes)
}

fn sector(bearing: f64) -> u8 {
    (bearing.rem_euclid(360.0) / SECTOR) as u8 % 32
}

/// Writes the differences to a point, and gives where a reader sees it.
fn write_moved(
    bytes: &mut Vec<u8>,
    number: usize,
    from: Place,
    to: Place,
) -> Result<Place, String> {
    let mut seen = [from.lon, from.lat];
    for (place, to) in seen.iter_mut().zip([to.lon, to.lat]) {
        let difference = ((to - *place) / SMALL_STEP).round();
        if difference.abs() > i16::MAX as f64 {
            return Err(format!("point {number} is too far from the one before"));
        }
        bytes.extend((difference as i16).to_be_bytes());
        *place += difference * SMALL_STEP;
    }
    Ok(Place {
        lon: seen[0],
        lat: seen[1],
    })
}
