//! The fields of a sheet that refusal 4 judges, and values out of their ranges.

use crate::random::Random;
use crate::{Point, Sheet};

/// What stands in a field, and so what is out of its range.
#[derive(Debug, Clone, Copy, PartialEq)]
enum Field {
    Metres,
    Bearing,
    /// DNP of a point without a path entry.
    NoPath,
    /// A byte of at most this.
    Byte(u8),
    Limit,
    /// A u16 of at most this.
    Half(u16),
    /// A u32 below this.
    Number(usize),
    Spare,
}

/// The fields of a sheet that refusal 4 judges, in order, by kinds of place.
fn fields(s: &Sheet) -> Vec<Vec<(usize, Field)>> {
    let mut at = 56;
    let mut sections: Vec<Vec<(usize, Field)>> = vec![];
    let mut section = |count: usize, record: &dyn Fn(usize) -> Vec<(Field, usize)>| {
        let mut places = vec![];
        for i in 0..count {
            for (field, size) in record(i) {
                places.push((at, field));
                at += size;
            }
        }
        sections.push(places);
    };
    section(1, &|_| settings());
    section(s.points.len(), &|i| point(&s.points[i]));
    section(s.roads.len(), &|_| road(s.nodes));
    section(s.nodes + 1, &|_| vec![(Field::Number(usize::MAX), 4)]);
    section(s.roads.len(), &|_| vec![(Field::Number(s.roads.len()), 4)]);
    let rows = s.points.iter().map(|p| p.rows.len()).sum();
    section(rows, &|_| row(s.roads.len()));
    section(2 * s.nodes, &|_| vec![(Field::Metres, 8)]);
    section(s.goals.len(), &|_| goal(s.nodes));
    sections.retain(|places| !places.is_empty());
    sections
}

fn spare(count: usize) -> Vec<(Field, usize)> {
    vec![(Field::Spare, 1); count]
}

fn settings() -> Vec<(Field, usize)> {
    let mut fields = vec![(Field::Metres, 8); 13];
    fields.extend([
        (Field::Byte(255), 1),
        (Field::Byte(1), 1),
        (Field::Half(64), 2),
    ]);
    fields.extend(spare(4));
    fields
}

fn point(p: &Point) -> Vec<(Field, usize)> {
    let dnp = if p.limit.is_none() {
        Field::NoPath
    } else {
        Field::Metres
    };
    let mut fields = vec![
        (dnp, 8),
        (Field::Half(360), 2),
        (Field::Byte(7), 1),
        (Field::Byte(7), 1),
        (Field::Limit, 1),
    ];
    fields.extend(spare(3));
    fields.push((Field::Number(65), 4));
    fields.extend(spare(4));
    fields
}

fn road(nodes: usize) -> Vec<(Field, usize)> {
    let mut fields = vec![
        (Field::Byte(255), 8),
        (Field::Metres, 8),
        (Field::Number(nodes), 4),
        (Field::Number(nodes), 4),
        (Field::Byte(7), 1),
        (Field::Byte(7), 1),
        (Field::Byte(1), 1),
    ];
    fields.extend(spare(5));
    fields
}

fn row(roads: usize) -> Vec<(Field, usize)> {
    let mut fields = vec![(Field::Number(roads), 4)];
    fields.extend(spare(4));
    fields.extend([
        (Field::Metres, 8),
        (Field::Bearing, 8),
        (Field::Metres, 8),
        (Field::Metres, 8),
    ]);
    fields
}

fn goal(nodes: usize) -> Vec<(Field, usize)> {
    let mut fields = vec![(Field::Number(nodes), 4)];
    fields.extend(spare(4));
    fields.extend(vec![(Field::Metres, 8); nodes]);
    fields
}

pub fn put(bytes: &mut [u8], at: usize, value: &[u8]) {
    bytes[at..at + value.len()].copy_from_slice(value);
}

fn put_f64(r: &mut Random, bytes: &mut [u8], at: usize, most: f64) {
    let above = f64::from_bits(most.to_bits() + 1);
    let negative = -r.metres(100);
    let choices = [
        -0.0,
        negative,
        f64::NAN,
        -f64::NAN,
        f64::INFINITY,
        above,
        2e7,
        most,
        5e-324,
        -5e-324,
    ];
    let value = r.of(&choices);
    put(bytes, at, &value.to_bits().to_le_bytes());
}

/// A value out of the field's range, or just within.
fn spoil(r: &mut Random, bytes: &mut [u8], at: usize, field: Field) {
    let any = r.next();
    match field {
        Field::Metres => put_f64(r, bytes, at, 10_000_000.0),
        Field::Bearing => put_f64(r, bytes, at, 360.0),
        Field::NoPath => put_f64(r, bytes, at, 0.0),
        Field::Byte(most) => bytes[at] = r.of(&[most, most.saturating_add(1), 255, any as u8]),
        Field::Limit => bytes[at] = r.of(&[7, 8, 254, 255, any as u8]),
        Field::Half(most) => {
            let value = r.of(&[most, most + 1, u16::MAX, any as u16]);
            put(bytes, at, &value.to_le_bytes());
        }
        Field::Number(count) => {
            let count = count as u32;
            let value = r.of(&[
                count.wrapping_sub(1),
                count,
                count.wrapping_add(1),
                u32::MAX,
                any as u32 % 256,
                0,
            ]);
            put(bytes, at, &value.to_le_bytes());
        }
        Field::Spare => bytes[at] = r.of(&[1, 128, 255]),
    }
}

/// A field of any section.
pub fn one_field(r: &mut Random, s: &Sheet, bytes: &mut [u8]) {
    let section = r.of(&fields(s));
    let (at, field) = r.of(&section);
    if at + 8 <= bytes.len() {
        spoil(r, bytes, at, field);
    }
}
