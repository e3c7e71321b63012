//! What spatial.rs uses of `petgraph`.

pub mod graph {
    #[derive(Debug, Clone, Copy, PartialEq, Eq, PartialOrd, Ord)]
    pub struct EdgeIndex(pub usize);
}
