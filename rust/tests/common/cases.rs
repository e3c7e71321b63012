//! The stored cases of crate `replay`, as crates/replay/src/record.rt lays them out.

pub fn files() -> [Vec<u8>; 2] {
    ["changes.bin", "classes.bin"].map(|name| {
        let data = concat!(env!("CARGO_MANIFEST_DIR"), "/../crates/replay/data");
        std::fs::read(format!("{data}/{name}")).unwrap()
    })
}

pub fn all(files: &[Vec<u8>]) -> impl Iterator<Item = Case<'_>> {
    files.iter().flat_map(|file| {
        let count = Case { file, at: 0 }.u32(0);
        (0..count).map(move |i| Case {
            file,
            at: 4 + 52 * i,
        })
    })
}

/// A sheet, the slots of its heap and the answer.
pub struct Case<'a> {
    file: &'a [u8],
    at: usize,
}

impl Case<'_> {
    fn u16(&self, at: usize) -> usize {
        u16::from_le_bytes(self.file[at..at + 2].try_into().unwrap()) as usize
    }

    fn u32(&self, at: usize) -> usize {
        u32::from_le_bytes(self.file[at..at + 4].try_into().unwrap()) as usize
    }

    pub fn sheet(&self) -> &[u8] {
        let begin = self.u32(self.at);
        &self.file[begin..begin + self.u32(self.at + 4)]
    }

    /// The least of the heap's four parts.
    pub fn heap(&self) -> usize {
        (3..7)
            .map(|i| self.u16(self.at + 28 + 2 * i))
            .min()
            .unwrap()
    }

    pub fn number(&self) -> usize {
        self.u32(self.at + 16)
    }

    pub fn text(&self) -> String {
        let (a, b) = (self.u32(self.at + 20), self.u32(self.at + 24));
        if self.number() != 0 {
            return format!("refused {} {a} {b}\n", self.number());
        }
        let (begin, count) = (self.u32(self.at + 8), self.u32(self.at + 12));
        let word = |i: usize| {
            let bytes = &self.file[begin + 8 * i..begin + 8 * i + 8];
            u64::from_le_bytes(bytes.try_into().unwrap())
        };
        let mut text = format!("path {count}\n");
        for i in 0..count {
            text += &format!("road {} {:016x}\n", word(7 + 2 * i), word(8 + 2 * i));
        }
        text += &format!("length {:016x}\n", word(0));
        text += &format!("start {:016x} {:016x}\n", word(1), word(2));
        text += &format!("end {:016x} {:016x}\n", word(3), word(4));
        text += &format!("primary {} {:016x}\n", word(5), word(6));
        text
    }
}
