//! The fields of a sheet, read by the tables of layout.rs.

use crate::layout::{self, u32_at, Counts, Entry, Form, Sections, Word};
use crate::{Field, Part, Range, Value};

/// The greatest f64 of a sheet.
const MOST: f64 = 10_000_000.0;

/// The field at an offset of a sheet, as of [`Refusal::Value`](crate::Refusal::Value).
///
/// None under 56 bytes, behind the sheet, and behind a header whose counts are above their limits.
///
/// ```
/// let sheet = std::fs::read("../sheets/s1.sheet")?;
/// let field = hemokatu::field_at(&sheet, 224).unwrap();
/// assert_eq!(field.to_string(), "length of road 0 (id 700)");
/// assert_eq!(field.value.to_string(), "100");
/// # Ok::<(), std::io::Error>(())
/// ```
pub fn field_at(sheet: &[u8], offset: usize) -> Option<Field> {
    Reader::of(sheet)?.field(offset)
}

/// All fields of a sheet that are there, in their order, whether they are well-formed or not.
///
/// None at all under 56 bytes; the header's alone where its counts are above their limits.
///
/// ```
/// let sheet = std::fs::read("../sheets/s1.sheet")?;
/// let named = |name| hemokatu::fields(&sheet).find(move |field| field.name == name).unwrap();
/// assert_eq!(named("search_radius_m").value.to_string(), "100");
/// # Ok::<(), std::io::Error>(())
/// ```
pub fn fields(sheet: &[u8]) -> impl Iterator<Item = Field> + '_ {
    let reader = Reader::of(sheet);
    let mut offset = 0;
    std::iter::from_fn(move || {
        let field = reader.as_ref()?.field(offset)?;
        offset = field.offset + field.size;
        Some(field)
    })
}

struct Reader<'a> {
    sheet: &'a [u8],
    counts: Counts,
    /// None where the counts are above their limits.
    begins: Option<Sections>,
}

impl Reader<'_> {
    fn of(sheet: &[u8]) -> Option<Reader<'_>> {
        let counts = Counts::read(sheet)?;
        let begins = counts.within_limits().then(|| counts.sections());
        Some(Reader {
            sheet,
            counts,
            begins,
        })
    }

    fn field(&self, offset: usize) -> Option<Field> {
        if offset < layout::size(layout::HEADER) {
            return self.one(Part::Header, layout::HEADER, 0, offset);
        }
        let at = self.begins?;
        let counts = &self.counts;
        if offset < at.points {
            self.one(Part::Settings, layout::SETTINGS, at.settings, offset)
        } else if offset < at.roads {
            let part = |point, _| Part::Point { point };
            self.record(layout::POINT, at.points, offset, part)
        } else if offset < at.lists {
            let part = |road, begin| Part::Road {
                road,
                id: self.u64_at(begin).unwrap_or(0),
            };
            self.record(layout::ROAD, at.roads, offset, part)
        } else if offset < at.rows {
            let numbers = at.lists + layout::size(layout::START) * (counts.nodes + 1);
            if offset < numbers {
                self.record(layout::START, at.lists, offset, |node, _| Part::Start {
                    node,
                })
            } else {
                let part = |position, _| Part::Listed { position };
                self.record(layout::NUMBER, numbers, offset, part)
            }
        } else if offset < at.distances {
            let part = |row, begin| self.row(&at, row, begin);
            self.record(layout::ROW, at.rows, offset, part)
        } else if offset < at.total {
            self.distance(at.distances, offset)
        } else {
            None
        }
    }

    fn distance(&self, begin: usize, offset: usize) -> Option<Field> {
        let last = begin + self.counts.distances_size();
        let goals = last + self.counts.distances_size();
        if offset < last {
            let part = |node, _| Part::FromFirst { node };
            return self.record(layout::DISTANCE, begin, offset, part);
        }
        if offset < goals {
            return self.record(layout::DISTANCE, last, offset, |node, _| Part::FromLast {
                node,
            });
        }
        let row = (offset - goals) / self.counts.goal_size();
        let begin = goals + row * self.counts.goal_size();
        let distances = begin + layout::size(layout::GOAL);
        let goal = u32_at(self.sheet, begin)?;
        if offset < distances {
            return self.one(Part::Goal { row, goal }, layout::GOAL, begin, offset);
        }
        let part = |node, _| Part::ToGoal { row, goal, node };
        self.record(layout::DISTANCE, distances, offset, part)
    }

    /// A row by its point and its place there, by the points' own row counts.
    fn row(&self, at: &Sections, number: usize, begin: usize) -> Part {
        let road = u32_at(self.sheet, begin).unwrap_or(0);
        let mut row = number;
        for point in 0..self.counts.points {
            let count = at.points + point * layout::size(layout::POINT) + layout::POINT_ROWS;
            let rows = u32_at(self.sheet, count).unwrap_or(0);
            if row < rows {
                let point = Some(point);
                return Part::Row { point, row, road };
            }
            row -= rows;
        }
        Part::Row {
            point: None,
            row: number,
            road,
        }
    }

    /// A field of one of many records: `part` has the record's number and where it begins.
    fn record(
        &self,
        entries: &'static [Entry],
        begin: usize,
        offset: usize,
        part: impl Fn(usize, usize) -> Part,
    ) -> Option<Field> {
        let number = (offset - begin) / layout::size(entries);
        let begin = begin + number * layout::size(entries);
        self.one(part(number, begin), entries, begin, offset)
    }

    /// A field of the record that begins there.
    fn one(&self, part: Part, entries: &[Entry], begin: usize, offset: usize) -> Option<Field> {
        let mut at = begin;
        let entry = entries.iter().find(|entry| {
            at += entry.size;
            offset < at
        })?;
        let (at, size) = match entry.form {
            Form::Spare => (offset, 1),
            _ => (at - entry.size, entry.size),
        };
        Some(Field {
            part,
            name: entry.name,
            offset: at,
            size,
            value: self.value(entry.form, at, size)?,
            range: self.range(entry.form, begin),
        })
    }

    fn value(&self, form: Form, at: usize, size: usize) -> Option<Value> {
        let mut bytes = [0; 8];
        bytes[..size].copy_from_slice(self.sheet.get(at..at + size)?);
        let number = u64::from_le_bytes(bytes);
        Some(match form {
            Form::Real | Form::Bearing | Form::Dnp => Value::Real(f64::from_bits(number)),
            _ => Value::Number(number),
        })
    }

    /// The range of a field of the record that begins there.
    fn range(&self, form: Form, record: usize) -> Range {
        let counts = &self.counts;
        match form {
            Form::Word(Word::Kind) => Range::Numbers(1, 9),
            Form::Word(Word::Points) if counts.kind == 2 => Range::Only(2),
            Form::Word(Word::Points) => Range::Numbers(0, layout::MOST_POINTS as u64),
            Form::Word(Word::UpTo(most)) => Range::Numbers(0, most as u64),
            Form::Word(Word::Begin(section)) => match self.begins {
                Some(begins) => Range::Only(begins.in_order()[section] as u64),
                None => Range::Any,
            },
            Form::Word(Word::Zero) | Form::Spare => Range::Only(0),
            Form::Id => Range::Any,
            Form::Dnp if self.sheet.get(record + layout::POINT_LIMIT) == Some(&layout::NO_PATH) => {
                Range::Only(0)
            }
            Form::Real | Form::Dnp => Range::Reals(MOST),
            Form::Bearing => Range::Reals(360.0),
            Form::UpTo(most) => Range::Numbers(0, most),
            Form::Limit => Range::ClassOrNone,
            Form::Node => Range::Below(counts.nodes),
            Form::Road => Range::Below(counts.roads),
            Form::Start => Range::Numbers(0, counts.roads as u64),
        }
    }

    fn u64_at(&self, at: usize) -> Option<u64> {
        let bytes = self.sheet.get(at..at + 8)?.try_into().ok()?;
        Some(u64::from_le_bytes(bytes))
    }
}
