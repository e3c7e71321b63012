//! The calls of include/hemokatu.h, made safe by what is lent: Rust's slices are valid, aligned and never overlap.
//! `harness/compare` has this file too.

#[repr(C)]
pub struct Judgement {
    pub number: usize,
    pub place: usize,
}

#[repr(C)]
pub struct Sizes {
    pub node: usize,
    pub heap_least: usize,
    pub list: usize,
}

#[repr(C)]
pub struct Answered {
    pub number: usize,
    pub a: usize,
    pub b: usize,
    pub count: usize,
    pub length_m: f64,
    pub start_offset: f64,
    pub start_fraction: f64,
    pub end_offset: f64,
    pub end_fraction: f64,
    pub primary: u64,
    pub coverage: f64,
}

#[repr(C)]
pub struct Tariff {
    pub cents: [u32; 8],
}

#[repr(C)]
pub struct Charged {
    pub number: usize,
    pub total: u64,
    pub amounts: [u64; 8],
}

extern "C" {
    fn hemokatu_version() -> u32;

    fn hemokatu_judge(sheet: *const u8, sheet_len: usize) -> Judgement;

    fn hemokatu_sizes(points: usize, nodes: usize) -> Sizes;

    fn hemokatu_decode(
        sheet: *const u8,
        sheet_len: usize,
        labels: *mut f64,
        labels_len: usize,
        came_from: *mut usize,
        came_from_len: usize,
        entries: *mut f64,
        entries_len: usize,
        links: *mut usize,
        links_len: usize,
        covered: *mut usize,
        covered_len: usize,
        coverage: *mut f64,
        coverage_len: usize,
        ids: *mut u64,
        ids_len: usize,
        lengths: *mut f64,
        lengths_len: usize,
    ) -> Answered;

    fn hemokatu_charge(
        tariff: Tariff,
        classes: *const u8,
        classes_len: usize,
        lengths: *const f64,
        lengths_len: usize,
    ) -> Charged;
}

pub fn version() -> u32 {
    // SAFETY: the call takes nothing and touches nothing.
    unsafe { hemokatu_version() }
}

pub fn judge(sheet: &[u8]) -> Judgement {
    // SAFETY: pointer and length are of one slice, which is only read.
    unsafe { hemokatu_judge(sheet.as_ptr(), sheet.len()) }
}

pub fn sizes(points: usize, nodes: usize) -> Sizes {
    // SAFETY: the call takes two numbers, of any value.
    unsafe { hemokatu_sizes(points, nodes) }
}

/// What a call is lent beside the sheet: slices of any length and any content, in the order of the call.
pub struct Lent<'a> {
    pub labels: &'a mut [f64],
    pub came_from: &'a mut [usize],
    pub entries: &'a mut [f64],
    pub links: &'a mut [usize],
    pub covered: &'a mut [usize],
    pub coverage: &'a mut [f64],
    pub ids: &'a mut [u64],
    pub lengths: &'a mut [f64],
}

pub fn decode(sheet: &[u8], lent: Lent) -> Answered {
    // SAFETY: each pointer and the length beside it are of one slice; the sheet is only read, and all others are
    // borrowed mutably, so nothing overlaps. The call accepts every content and every length.
    unsafe {
        hemokatu_decode(
            sheet.as_ptr(),
            sheet.len(),
            lent.labels.as_mut_ptr(),
            lent.labels.len(),
            lent.came_from.as_mut_ptr(),
            lent.came_from.len(),
            lent.entries.as_mut_ptr(),
            lent.entries.len(),
            lent.links.as_mut_ptr(),
            lent.links.len(),
            lent.covered.as_mut_ptr(),
            lent.covered.len(),
            lent.coverage.as_mut_ptr(),
            lent.coverage.len(),
            lent.ids.as_mut_ptr(),
            lent.ids.len(),
            lent.lengths.as_mut_ptr(),
            lent.lengths.len(),
        )
    }
}

pub fn charge(tariff: Tariff, classes: &[u8], lengths: &[f64]) -> Charged {
    // SAFETY: each pointer and the length beside it are of one slice, which is only read. The call accepts every content
    // and every length.
    unsafe {
        hemokatu_charge(
            tariff,
            classes.as_ptr(),
            classes.len(),
            lengths.as_ptr(),
            lengths.len(),
        )
    }
}
