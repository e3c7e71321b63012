//! Routes of the network for the encoder: shortest paths, valid nodes and forced ways.

use crate::sheet::Measurer;
use std::cell::RefCell;
use std::cmp::Reverse;
use std::collections::{BinaryHeap, HashMap};
use std::rc::Rc;

/// The open roads of each node, out of it and into it.
pub struct Routes<'a> {
    pub host: &'a Measurer<'a>,
    out: Vec<Vec<usize>>,
    into: Vec<Vec<usize>>,
    /// The trees that were asked for.
    trees: RefCell<HashMap<usize, Tree>>,
}

/// The last road of the cheapest path from a node to each other; None where there is none.
pub type Tree = Rc<[Option<usize>]>;

impl<'a> Routes<'a> {
    pub fn new(host: &'a Measurer<'a>) -> Routes<'a> {
        let none = vec![vec![]; host.network.nodes.len()];
        let (mut out, mut into) = (none.clone(), none);
        for (number, road) in host.network.roads.iter().enumerate() {
            if host.is_open(number) {
                out[road.from].push(number);
                into[road.to].push(number);
            }
        }
        let trees = RefCell::default();
        Routes {
            host,
            out,
            into,
            trees,
        }
    }

    pub fn out(&self, node: usize) -> &[usize] {
        &self.out[node]
    }

    pub fn into(&self, node: usize) -> &[usize] {
        &self.into[node]
    }

    pub fn ends(&self, road: usize) -> (usize, usize) {
        let road = &self.host.network.roads[road];
        (road.from, road.to)
    }

    pub fn length(&self, road: usize) -> f64 {
        self.host.network.roads[road].length_m
    }

    /// The road's metres and the penalty of its form, as the decoder's search counts them.
    fn cost(&self, road: usize) -> f64 {
        let street = self.host.network.street_of(road);
        let penalty = match street.fow {
            6 => self.host.settings.slip_road_cost_penalty_m,
            _ if street.access => self.host.settings.access_road_cost_penalty_m,
            _ => 0.0,
        };
        self.length(road) + penalty
    }

    /// The cheapest paths from a node.
    pub fn tree(&self, from: usize) -> Tree {
        let mut trees = self.trees.borrow_mut();
        trees
            .entry(from)
            .or_insert_with(|| self.grow(from).into())
            .clone()
    }

    fn grow(&self, from: usize) -> Vec<Option<usize>> {
        let mut cost = vec![f64::INFINITY; self.out.len()];
        let mut last = vec![None; self.out.len()];
        cost[from] = 0.0;
        let mut open = BinaryHeap::from([(Reverse(0), from)]);
        // The bits of amounts are ordered as the amounts are.
        while let Some((Reverse(bits), node)) = open.pop() {
            if f64::from_bits(bits) > cost[node] {
                continue;
            }
            for &road in &self.out[node] {
                let (_, to) = self.ends(road);
                let through = cost[node] + self.cost(road);
                if through < cost[to] {
                    (cost[to], last[to]) = (through, Some(road));
                    open.push((Reverse(through.to_bits()), to));
                }
            }
        }
        last
    }

    /// The roads of a tree's path to a node; None where it does not lead there.
    pub fn path(&self, tree: &[Option<usize>], from: usize, to: usize) -> Option<Vec<usize>> {
        let mut roads = vec![];
        let mut node = to;
        while node != from {
            let road = tree[node]?;
            roads.push(road);
            node = self.ends(road).0;
        }
        roads.reverse();
        Some(roads)
    }

    /// `is_valid_node`: not passed without a choice.
    pub fn is_valid(&self, node: usize) -> bool {
        let mut neighbours: Vec<(usize, usize, usize)> = vec![];
        let ins = self.into[node]
            .iter()
            .map(|road| (self.ends(*road).0, 1, 0));
        let outs = self.out[node].iter().map(|road| (self.ends(*road).1, 0, 1));
        for (other, i, o) in ins.chain(outs) {
            match neighbours.iter_mut().find(|n| n.0 == other) {
                Some(entry) => (entry.1, entry.2) = (entry.1 + i, entry.2 + o),
                None => neighbours.push((other, i, o)),
            }
        }
        let is_loop = neighbours.iter().any(|n| n.0 == node);
        let one_each = neighbours.iter().all(|&(_, i, o)| i <= 1 && o <= 1);
        let is_even = self.into[node].len() == self.out[node].len();
        is_loop || neighbours.len() != 2 || !one_each || !is_even
    }

    /// The roads from the path's end on to the next valid node, which leave no choice.
    pub fn onward(&self, path: &[usize]) -> Vec<usize> {
        let mut added: Vec<usize> = vec![];
        loop {
            let last = added.last().or(path.last()).expect("a path has roads");
            let (from, node) = self.ends(*last);
            let next = self.out[node]
                .iter()
                .find(|road| self.ends(**road).1 != from);
            match next {
                Some(next)
                    if !self.is_valid(node) && !path.contains(next) && !added.contains(next) =>
                {
                    added.push(*next)
                }
                _ => return added,
            }
        }
    }

    /// The same before the path's start, in travel order.
    pub fn before(&self, path: &[usize]) -> Vec<usize> {
        let mut added: Vec<usize> = vec![];
        loop {
            let first = added.last().or(path.first()).expect("a path has roads");
            let (node, to) = self.ends(*first);
            let next = self.into[node]
                .iter()
                .find(|road| self.ends(**road).0 != to);
            match next {
                Some(next)
                    if !self.is_valid(node) && !path.contains(next) && !added.contains(next) =>
                {
                    added.push(*next)
                }
                _ => break,
            }
        }
        added.reverse();
        added
    }
}
