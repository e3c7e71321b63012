//! What spatial.rs uses of `rstar`, so that it compiles. The comparison asks no tree.

pub trait Envelope {
    fn new_empty() -> Self;
}

pub trait RTreeObject {
    type Envelope;

    fn envelope(&self) -> Self::Envelope;
}

#[derive(Debug, Clone, Copy)]
pub struct AABB<P> {
    lower: P,
    upper: P,
}

impl AABB<[f64; 2]> {
    pub fn from_corners(lower: [f64; 2], upper: [f64; 2]) -> Self {
        AABB { lower, upper }
    }

    fn meets(&self, other: &Self) -> bool {
        (0..2).all(|i| self.lower[i] <= other.upper[i] && other.lower[i] <= self.upper[i])
    }
}

impl Envelope for AABB<[f64; 2]> {
    fn new_empty() -> Self {
        AABB {
            lower: [f64::MAX; 2],
            upper: [f64::MIN; 2],
        }
    }
}

pub struct RTree<T>(Vec<T>);

impl<T: RTreeObject<Envelope = AABB<[f64; 2]>>> RTree<T> {
    pub fn bulk_load(objects: Vec<T>) -> Self {
        RTree(objects)
    }

    pub fn locate_in_envelope_intersecting(
        &self,
        envelope: AABB<[f64; 2]>,
    ) -> impl Iterator<Item = &T> {
        self.0.iter().filter(move |t| t.envelope().meets(&envelope))
    }

    pub fn size(&self) -> usize {
        self.0.len()
    }
}
