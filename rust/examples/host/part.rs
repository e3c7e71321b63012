//! Nodes and roads of the network as a sheet has them.

use crate::network::Network;
use hemokatu::Road;
use std::collections::{BTreeSet, HashMap};
use std::sync::Arc;

pub struct Part {
    /// The network's number of each node on the sheet.
    pub nodes: Vec<usize>,
    /// The sheet's number of each road that is on it, by the network's.
    pub roads: HashMap<usize, usize>,
    /// The same for the builder of sheets, which lays it out once.
    pub kept: Arc<hemokatu::Network>,
}

impl Part {
    /// Every open road that leaves or enters one of these nodes, with its other end, in the order of the network.
    pub fn around(
        network: &Network,
        inner: &BTreeSet<usize>,
        is_open: impl Fn(usize) -> bool,
    ) -> Part {
        let is_on = |road: &usize| {
            let ends = network.roads[*road].ends();
            is_open(*road) && ends.iter().any(|end| inner.contains(end))
        };
        let on: Vec<usize> = (0..network.roads.len()).filter(is_on).collect();
        let ends = on.iter().flat_map(|road| network.roads[*road].ends());
        let nodes: BTreeSet<usize> = inner.iter().copied().chain(ends).collect();
        let nodes: Vec<usize> = nodes.into_iter().collect();
        let numbered = nodes.iter().enumerate();
        let number: HashMap<usize, usize> = numbered.map(|(n, node)| (*node, n)).collect();

        let mut kept = hemokatu::Network::new(nodes.len());
        let mut roads = HashMap::new();
        for road in on {
            let (r, street) = (&network.roads[road], network.street_of(road));
            let added = kept.road(Road {
                id: r.id,
                length_m: r.length_m,
                source: number[&r.from],
                target: number[&r.to],
                frc: street.frc,
                fow: street.fow,
                access: street.access,
            });
            roads.insert(road, added);
        }
        Part {
            nodes,
            roads,
            kept: Arc::new(kept),
        }
    }
}
