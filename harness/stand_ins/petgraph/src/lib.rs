//! What the published files use of `petgraph`: a directed graph whose `edges` come in the order of a sheet's lists.

#[derive(Debug, Clone, Copy, PartialEq, Eq)]
pub enum Direction {
    Outgoing,
    Incoming,
}

pub mod visit {
    use crate::graph::{EdgeIndex, NodeIndex};

    pub trait EdgeRef<'a, E: 'a> {
        fn id(&self) -> EdgeIndex;
        fn source(&self) -> NodeIndex;
        fn target(&self) -> NodeIndex;
        fn weight(&self) -> &'a E;
    }
}

pub mod graph {
    use crate::visit::EdgeRef;
    use crate::Direction;
    use std::ops::Index;

    #[derive(Debug, Clone, Copy, PartialEq, Eq, Hash, PartialOrd, Ord)]
    pub struct NodeIndex(usize);

    #[derive(Debug, Clone, Copy, PartialEq, Eq, Hash, PartialOrd, Ord)]
    pub struct EdgeIndex(usize);

    impl NodeIndex {
        pub fn new(number: usize) -> Self {
            NodeIndex(number)
        }
    }

    impl EdgeIndex {
        pub fn new(number: usize) -> Self {
            EdgeIndex(number)
        }

        pub fn index(self) -> usize {
            self.0
        }
    }

    struct Held<E> {
        source: NodeIndex,
        target: NodeIndex,
        weight: E,
    }

    pub struct DiGraph<N, E> {
        nodes: Vec<N>,
        edges: Vec<Held<E>>,
        outgoing: Vec<Vec<usize>>,
        incoming: Vec<Vec<usize>>,
    }

    impl<N, E> Default for DiGraph<N, E> {
        fn default() -> Self {
            DiGraph {
                nodes: vec![],
                edges: vec![],
                outgoing: vec![],
                incoming: vec![],
            }
        }
    }

    impl<N, E> DiGraph<N, E> {
        pub fn with_capacity(_nodes: usize, _edges: usize) -> Self {
            Self::default()
        }

        pub fn add_node(&mut self, weight: N) -> NodeIndex {
            self.nodes.push(weight);
            self.outgoing.push(vec![]);
            self.incoming.push(vec![]);
            NodeIndex(self.nodes.len() - 1)
        }

        pub fn add_edge(&mut self, source: NodeIndex, target: NodeIndex, weight: E) -> EdgeIndex {
            let number = self.edges.len();
            self.outgoing[source.0].insert(0, number);
            self.incoming[target.0].insert(0, number);
            self.edges.push(Held {
                source,
                target,
                weight,
            });
            EdgeIndex(number)
        }

        /// Not in the original: a sheet says in which order `edges` yields the roads of a node.
        pub fn set_lists(&mut self, lists: Vec<Vec<usize>>) {
            self.outgoing = lists;
        }

        pub fn edge_weight(&self, edge: EdgeIndex) -> Option<&E> {
            self.edges.get(edge.0).map(|e| &e.weight)
        }

        pub fn node_weight(&self, node: NodeIndex) -> Option<&N> {
            self.nodes.get(node.0)
        }

        pub fn edge_endpoints(&self, edge: EdgeIndex) -> Option<(NodeIndex, NodeIndex)> {
            self.edges.get(edge.0).map(|e| (e.source, e.target))
        }

        pub fn edges(&self, node: NodeIndex) -> Edges<'_, E> {
            self.edges_directed(node, Direction::Outgoing)
        }

        /// The roads into a node come newest first, as in the original.
        pub fn edges_directed(&self, node: NodeIndex, direction: Direction) -> Edges<'_, E> {
            let numbers = match direction {
                Direction::Outgoing => &self.outgoing[node.0],
                Direction::Incoming => &self.incoming[node.0],
            };
            Edges {
                edges: &self.edges,
                numbers: numbers.iter(),
            }
        }

        pub fn edge_indices(&self) -> impl Iterator<Item = EdgeIndex> {
            (0..self.edges.len()).map(EdgeIndex)
        }

        pub fn node_indices(&self) -> impl Iterator<Item = NodeIndex> {
            (0..self.nodes.len()).map(NodeIndex)
        }

        pub fn node_count(&self) -> usize {
            self.nodes.len()
        }

        pub fn edge_count(&self) -> usize {
            self.edges.len()
        }
    }

    impl<N, E> Index<NodeIndex> for DiGraph<N, E> {
        type Output = N;

        fn index(&self, node: NodeIndex) -> &N {
            &self.nodes[node.0]
        }
    }

    impl<N, E> Index<EdgeIndex> for DiGraph<N, E> {
        type Output = E;

        fn index(&self, edge: EdgeIndex) -> &E {
            &self.edges[edge.0].weight
        }
    }

    pub struct Edges<'a, E> {
        edges: &'a [Held<E>],
        numbers: std::slice::Iter<'a, usize>,
    }

    impl<'a, E> Iterator for Edges<'a, E> {
        type Item = EdgeReference<'a, E>;

        fn next(&mut self) -> Option<Self::Item> {
            let number = *self.numbers.next()?;
            Some(EdgeReference {
                number,
                held: &self.edges[number],
            })
        }
    }

    pub struct EdgeReference<'a, E> {
        number: usize,
        held: &'a Held<E>,
    }

    impl<'a, E> EdgeRef<'a, E> for EdgeReference<'a, E> {
        fn id(&self) -> EdgeIndex {
            EdgeIndex(self.number)
        }

        fn source(&self) -> NodeIndex {
            self.held.source
        }

        fn target(&self) -> NodeIndex {
            self.held.target
        }

        fn weight(&self) -> &'a E {
            &self.held.weight
        }
    }
}
