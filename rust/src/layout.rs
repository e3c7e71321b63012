//! Where everything stands on a sheet.

pub const MOST_POINTS: usize = 16;
pub const MOST_NODES: usize = 1024;
pub const MOST_ROADS: usize = 4096;
pub const MOST_ROWS: usize = 1024;
pub const MOST_ROWS_OF_POINT: usize = 64;
pub const MOST_GOALS: usize = 1024;

/// The limit of a point without a path entry.
pub const NO_PATH: u8 = 255;

/// A field of a record: its bytes, its name and what may stand there.
pub struct Entry {
    pub size: usize,
    pub name: &'static str,
    pub form: Form,
}

/// What may stand in a field.
#[derive(Clone, Copy)]
pub enum Form {
    /// A word of the header.
    Word(Word),
    /// An id, any u64.
    Id,
    /// Metres or a weight: an f64 within the range of all.
    Real,
    /// Degrees of a row: an f64 up to 360.
    Bearing,
    /// The distance to the next point: `Real`, and 0 without a path entry.
    Dnp,
    /// A number up to this one.
    UpTo(u64),
    /// A class or 255.
    Limit,
    /// The number of a node.
    Node,
    /// The number of a road.
    Road,
    /// A position in the lists.
    Start,
    /// Zeros, each byte a field of its own.
    Spare,
}

/// The words of the header.
#[derive(Clone, Copy)]
pub enum Word {
    Kind,
    Points,
    UpTo(usize),
    /// An offset, or the total: the place of a section.
    Begin(usize),
    Zero,
}

const fn entry(size: usize, name: &'static str, form: Form) -> Entry {
    Entry { size, name, form }
}

const fn word(name: &'static str, word: Word) -> Entry {
    entry(4, name, Form::Word(word))
}

const fn real(name: &'static str) -> Entry {
    entry(8, name, Form::Real)
}

const fn class(name: &'static str) -> Entry {
    entry(1, name, Form::UpTo(7))
}

const fn spare(size: usize) -> Entry {
    entry(size, "spare byte", Form::Spare)
}

pub const HEADER: &[Entry] = &[
    word("kind", Word::Kind),
    word("number of points", Word::Points),
    word("number of nodes", Word::UpTo(MOST_NODES)),
    word("number of roads", Word::UpTo(MOST_ROADS)),
    word("number of rows", Word::UpTo(MOST_ROWS)),
    word("number of goal rows", Word::UpTo(MOST_GOALS)),
    word("offset of the settings", Word::Begin(0)),
    word("offset of the points", Word::Begin(1)),
    word("offset of the roads", Word::Begin(2)),
    word("offset of the lists", Word::Begin(3)),
    word("offset of the rows", Word::Begin(4)),
    word("offset of the distances", Word::Begin(5)),
    word("total length", Word::Begin(6)),
    word("final zero", Word::Zero),
];

pub const SETTINGS: &[Entry] = &[
    real("search_radius_m"),
    real("max_bearing_diff_deg"),
    real("max_candidate_distance_m"),
    real("distance_weight"),
    real("bearing_weight"),
    real("frc_weight"),
    real("fow_weight"),
    real("length_tolerance"),
    real("absolute_length_tolerance_m"),
    real("max_search_distance_factor"),
    real("slip_road_cost_penalty_m"),
    real("access_road_cost_penalty_m"),
    real("max_snap_extension_m"),
    entry(1, "frc_tolerance", Form::UpTo(255)),
    entry(1, "snap_to_valid_nodes", Form::UpTo(1)),
    entry(2, "max_candidates", Form::UpTo(64)),
    spare(4),
];

pub const POINT: &[Entry] = &[
    entry(8, "DNP", Form::Dnp),
    entry(2, "bearing", Form::UpTo(360)),
    class("FRC"),
    class("FOW"),
    entry(1, "LFRCNP", Form::Limit),
    spare(3),
    entry(4, "row count", Form::UpTo(MOST_ROWS_OF_POINT as u64)),
    spare(4),
];

/// Places in a point's record.
pub const POINT_LIMIT: usize = 12;
pub const POINT_ROWS: usize = 16;

pub const ROAD: &[Entry] = &[
    entry(8, "id", Form::Id),
    real("length"),
    entry(4, "source", Form::Node),
    entry(4, "target", Form::Node),
    class("FRC"),
    class("FOW"),
    entry(1, "access flag", Form::UpTo(1)),
    spare(5),
];

pub const ROW: &[Entry] = &[
    entry(4, "road", Form::Road),
    spare(4),
    real("distance"),
    entry(8, "bearing", Form::Bearing),
    real("along"),
    real("line length"),
];

/// What stands before the distances of a goal row.
pub const GOAL: &[Entry] = &[entry(4, "node", Form::Node), spare(4)];

pub const START: &[Entry] = &[entry(4, "start position", Form::Start)];
pub const NUMBER: &[Entry] = &[entry(4, "road number", Form::Road)];
pub const DISTANCE: &[Entry] = &[real("distance")];

pub const fn size(entries: &[Entry]) -> usize {
    let mut sum = 0;
    let mut i = 0;
    while i < entries.len() {
        sum += entries[i].size;
        i += 1;
    }
    sum
}

/// The counts of a header.
#[derive(Debug, Clone, Copy, PartialEq, Eq)]
pub struct Counts {
    pub kind: usize,
    pub points: usize,
    pub nodes: usize,
    pub roads: usize,
    pub rows: usize,
    pub goals: usize,
}

/// Where the sections begin, and the length of the sheet.
#[derive(Debug, Clone, Copy)]
pub struct Sections {
    pub settings: usize,
    pub points: usize,
    pub roads: usize,
    pub lists: usize,
    pub rows: usize,
    pub distances: usize,
    pub total: usize,
}

impl Counts {
    /// None under 56 bytes.
    pub fn read(sheet: &[u8]) -> Option<Counts> {
        let header = sheet.get(..size(HEADER))?;
        let word = |i: usize| u32_at(header, 4 * i);
        Some(Counts {
            kind: word(0)?,
            points: word(1)?,
            nodes: word(2)?,
            roads: word(3)?,
            rows: word(4)?,
            goals: word(5)?,
        })
    }

    pub fn within_limits(&self) -> bool {
        self.points <= MOST_POINTS
            && self.nodes <= MOST_NODES
            && self.roads <= MOST_ROADS
            && self.rows <= MOST_ROWS
            && self.goals <= MOST_GOALS
    }

    /// For counts within their limits.
    pub fn sections(&self) -> Sections {
        let settings = size(HEADER);
        let points = settings + size(SETTINGS);
        let roads = points + size(POINT) * self.points;
        let lists = roads + size(ROAD) * self.roads;
        let rows = roads + network_size(self.nodes, self.roads);
        let distances = rows + size(ROW) * self.rows;
        let total = distances + 2 * self.distances_size() + self.goal_size() * self.goals;
        Sections {
            settings,
            points,
            roads,
            lists,
            rows,
            distances,
            total,
        }
    }

    /// The bytes of a distance for each node.
    pub fn distances_size(&self) -> usize {
        size(DISTANCE) * self.nodes
    }

    pub fn goal_size(&self) -> usize {
        size(GOAL) + self.distances_size()
    }
}

impl Sections {
    pub fn in_order(&self) -> [usize; 7] {
        [
            self.settings,
            self.points,
            self.roads,
            self.lists,
            self.rows,
            self.distances,
            self.total,
        ]
    }
}

/// The bytes of the roads and the lists.
pub fn network_size(nodes: usize, roads: usize) -> usize {
    (size(ROAD) + size(NUMBER)) * roads + size(START) * (nodes + 1)
}

pub fn u32_at(bytes: &[u8], at: usize) -> Option<usize> {
    let word = bytes.get(at..at + 4)?.try_into().ok()?;
    Some(u32::from_le_bytes(word) as usize)
}
