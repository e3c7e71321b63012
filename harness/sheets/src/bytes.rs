//! The bytes of a sheet, and the parts of well-formed bytes.

use crate::{Point, Road, Row, Settings, Sheet};

struct Writer(Vec<u8>);

impl Writer {
    fn u32(&mut self, v: usize) {
        self.0.extend((v as u32).to_le_bytes());
    }

    fn f64(&mut self, v: f64) {
        self.0.extend(v.to_bits().to_le_bytes());
    }

    fn f64s(&mut self, vs: &[f64]) {
        for v in vs {
            self.f64(*v);
        }
    }

    fn settings(&mut self, s: &Settings) {
        for v in s.clone().numbers() {
            self.f64(*v);
        }
        self.0.extend([s.frc_tolerance, s.snap as u8]);
        self.0.extend(s.most_candidates.to_le_bytes());
        self.u32(0);
    }

    fn point(&mut self, p: &Point) {
        self.f64(p.dnp);
        self.0.extend(p.bearing.to_le_bytes());
        self.0
            .extend([p.frc, p.fow, p.limit.unwrap_or(255), 0, 0, 0]);
        self.u32(p.rows.len());
        self.u32(0);
    }

    fn road(&mut self, r: &Road) {
        self.0.extend(r.id.to_le_bytes());
        self.f64(r.length);
        self.u32(r.source);
        self.u32(r.target);
        self.0.extend([r.frc, r.fow, r.access as u8, 0, 0, 0, 0, 0]);
    }

    fn lists(&mut self, lists: &[Vec<usize>]) {
        let mut start = 0;
        self.u32(start);
        for list in lists {
            start += list.len();
            self.u32(start);
        }
        for road in lists.iter().flatten() {
            self.u32(*road);
        }
    }

    fn row(&mut self, r: &Row) {
        self.u32(r.road);
        self.u32(0);
        self.f64s(&[r.distance, r.bearing, r.along, r.length]);
    }
}

impl Sheet {
    pub fn bytes(&self) -> Vec<u8> {
        let (p, n, e) = (self.points.len(), self.nodes, self.roads.len());
        let m: usize = self.points.iter().map(|p| p.rows.len()).sum();
        let g = self.goals.len();
        let points = 56 + 112;
        let roads = points + 24 * p;
        let lists = roads + 32 * e;
        let rows = lists + 4 * (n + 1) + 4 * e;
        let distances = rows + 40 * m;
        let total = distances + 16 * n + g * (8 + 8 * n);
        let mut w = Writer(Vec::with_capacity(total));
        let kind = self.kind as usize;
        for v in [
            kind, p, n, e, m, g, 56, points, roads, lists, rows, distances, total, 0,
        ] {
            w.u32(v);
        }
        w.settings(&self.settings);
        self.points.iter().for_each(|p| w.point(p));
        self.roads.iter().for_each(|r| w.road(r));
        w.lists(&self.lists);
        self.points
            .iter()
            .flat_map(|p| &p.rows)
            .for_each(|r| w.row(r));
        w.f64s(&self.from_first);
        w.f64s(&self.from_last);
        for (node, distances) in &self.goals {
            w.u32(*node);
            w.u32(0);
            w.f64s(distances);
        }
        assert_eq!(w.0.len(), total);
        w.0
    }

    /// The parts of bytes that rows 1 to 5 of the table let pass.
    pub fn read(bytes: &[u8]) -> Sheet {
        let mut r = Reader { bytes, at: 0 };
        let head: Vec<usize> = (0..14).map(|_| r.u32()).collect();
        let (p, n, e, g) = (head[1], head[2], head[3], head[5]);
        let settings = r.settings();
        let counted: Vec<(Point, usize)> = (0..p).map(|_| r.point()).collect();
        let roads = (0..e).map(|_| r.road()).collect();
        let lists = r.lists(n);
        let mut points = vec![];
        for (mut point, rows) in counted {
            point.rows = (0..rows).map(|_| r.row()).collect();
            points.push(point);
        }
        Sheet {
            kind: head[0] as u32,
            nodes: n,
            settings,
            points,
            roads,
            lists,
            from_first: r.f64s(n),
            from_last: r.f64s(n),
            goals: (0..g).map(|_| r.goal(n)).collect(),
        }
    }
}

struct Reader<'a> {
    bytes: &'a [u8],
    at: usize,
}

impl Reader<'_> {
    fn take<const N: usize>(&mut self) -> [u8; N] {
        let part = &self.bytes[self.at..self.at + N];
        self.at += N;
        part.try_into().unwrap()
    }

    fn u8(&mut self) -> u8 {
        self.take::<1>()[0]
    }

    fn u16(&mut self) -> u16 {
        u16::from_le_bytes(self.take())
    }

    fn u32(&mut self) -> usize {
        u32::from_le_bytes(self.take()) as usize
    }

    fn f64(&mut self) -> f64 {
        f64::from_bits(u64::from_le_bytes(self.take()))
    }

    fn f64s(&mut self, n: usize) -> Vec<f64> {
        (0..n).map(|_| self.f64()).collect()
    }

    fn settings(&mut self) -> Settings {
        let mut s = Settings::default();
        for v in s.numbers() {
            *v = self.f64();
        }
        s.frc_tolerance = self.u8();
        s.snap = self.u8() == 1;
        s.most_candidates = self.u16();
        self.u32();
        s
    }

    /// A point without its rows, and their number.
    fn point(&mut self) -> (Point, usize) {
        let dnp = self.f64();
        let bearing = self.u16();
        let [frc, fow, limit, ..] = self.take::<6>();
        let limit = (limit != 255).then_some(limit);
        let count = self.u32();
        self.u32();
        let rows = vec![];
        let point = Point {
            dnp,
            bearing,
            frc,
            fow,
            limit,
            rows,
        };
        (point, count)
    }

    fn road(&mut self) -> Road {
        let id = u64::from_le_bytes(self.take());
        let length = self.f64();
        let (source, target) = (self.u32(), self.u32());
        let [frc, fow, access, ..] = self.take::<8>();
        Road {
            id,
            length,
            source,
            target,
            frc,
            fow,
            access: access == 1,
        }
    }

    fn lists(&mut self, n: usize) -> Vec<Vec<usize>> {
        let starts: Vec<usize> = (0..n + 1).map(|_| self.u32()).collect();
        let list = |w: &[usize]| (w[0]..w[1]).map(|_| self.u32()).collect();
        starts.windows(2).map(list).collect()
    }

    fn row(&mut self) -> Row {
        let road = self.u32();
        self.u32();
        Row {
            road,
            distance: self.f64(),
            bearing: self.f64(),
            along: self.f64(),
            length: self.f64(),
        }
    }

    fn goal(&mut self, n: usize) -> (usize, Vec<f64>) {
        let node = self.u32();
        self.u32();
        (node, self.f64s(n))
    }
}
