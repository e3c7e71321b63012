//! The network that ships with the host, paths in it, and what is wrong with others.

use crate::network::Network;
use crate::route::Routes;

pub fn town() -> Network {
    Network::parse(crate::TOWN).expect("the town can be read")
}

/// Random numbers: xorshift, so that every run is the same.
pub struct Dice(pub u64);

impl Dice {
    pub fn below(&mut self, count: usize) -> usize {
        self.0 ^= self.0 << 13;
        self.0 ^= self.0 >> 7;
        self.0 ^= self.0 << 17;
        (self.0 % count as u64) as usize
    }

    /// The cheapest path between two nodes.
    pub fn path(&mut self, routes: &Routes) -> Vec<usize> {
        let nodes = routes.host.network.nodes.len();
        loop {
            let (from, to) = (self.below(nodes), self.below(nodes));
            if from != to {
                return routes
                    .path(&routes.tree(from), from, to)
                    .expect("the town is connected");
            }
        }
    }

    /// A walk of up to 30 roads, none twice and never back at once.
    pub fn walk(&mut self, routes: &Routes) -> Vec<usize> {
        let mut node = self.below(routes.host.network.nodes.len());
        let mut path: Vec<usize> = vec![];
        for _ in 0..1 + self.below(30) {
            let back = path.last().map(|road| routes.ends(*road).0);
            let is_new = |road: &usize| !path.contains(road) && Some(routes.ends(*road).1) != back;
            let ways: Vec<usize> = routes.out(node).iter().copied().filter(is_new).collect();
            if ways.is_empty() {
                break;
            }
            let road = ways[self.below(ways.len())];
            node = routes.ends(road).1;
            path.push(road);
        }
        path
    }
}

#[test]
fn the_town_has_what_it_promises() {
    let town = town();
    assert_eq!(
        (town.nodes.len(), town.streets.len(), town.roads.len()),
        (247, 356, 606)
    );
    let count =
        |is: fn(&crate::network::Street) -> bool| town.streets.iter().filter(|s| is(s)).count();
    assert_eq!(count(|s| s.name.starts_with("Ring Road")), 34);
    assert_eq!(count(|s| s.fow == 6), 32);
    assert_eq!(count(|s| s.name.starts_with("Yard") && s.access), 21);
    assert_eq!(
        count(|s| s.name == "North Street") + count(|s| s.name == "South Street"),
        22
    );
    let lengths: Vec<f64> = town.roads.iter().map(|road| road.length_m).collect();
    let least = lengths.iter().copied().fold(f64::INFINITY, f64::min);
    assert!(
        least > 5.0 && lengths.iter().all(|m| *m < 1_000.0),
        "{least}"
    );
}

#[test]
fn a_bad_line_is_named() {
    let nodes = "node,1,10.0,50.0\nnode,2,10.1,50.0\n";
    for (line, error) in [
        ("way,1", "line 3: neither node nor road"),
        ("node,1,10,50", "line 3: node 1 is there already"),
        ("node,3,10,95", "line 3: 10 95 is no place on earth"),
        (
            "node,3,east,50",
            "line 3: the longitude \"east\" is no number",
        ),
        (
            "road,7,1,2,3,3,0,0,Street",
            "line 3: 8 fields behind the first one instead of 9",
        ),
        (
            "road,7,1,9,3,3,0,0,Street,",
            "line 3: node 9 is not there, or comes later",
        ),
        (
            "road,7,1,2,8,3,0,0,Street,",
            "line 3: the class 8 is above 7",
        ),
        (
            "road,7,1,2,3,3,2,0,Street,",
            "line 3: the access 2 is above 1",
        ),
        (
            "road,7,1,2,3,3,0,0,Street,10.05",
            "line 3: \"10.05\" is no longitude and latitude with a space between",
        ),
    ] {
        let read = Network::parse(&format!("{nodes}{line}\n"));
        assert_eq!(read.err().as_deref(), Some(error), "{line}");
    }
    let both = Network::parse(&format!("{nodes}road,7,1,2,3,3,0,0,Street,\n")).unwrap();
    let ids: Vec<u64> = both.roads.iter().map(|road| road.id).collect();
    assert_eq!(ids, [14, 15]);
}
