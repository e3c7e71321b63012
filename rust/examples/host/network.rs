//! The road network of a CSV file. town.csv, which ships with the host, says in its first lines what a record has.

use crate::measure::{self, Place};
use std::collections::HashMap;
use std::path::Path;
use std::str::FromStr;

pub struct Node {
    pub id: u64,
    pub at: Place,
}

/// A record of the file: what a map names, with one or two directions.
pub struct Street {
    pub id: u64,
    pub name: String,
    pub frc: u8,
    pub fow: u8,
    pub access: bool,
}

/// One direction of a street: what a sheet calls a road.
pub struct Road {
    /// Twice the street's id, and one more for the direction against its line.
    pub id: u64,
    /// Its street's number.
    pub street: usize,
    /// The nodes' numbers.
    pub from: usize,
    pub to: usize,
    /// In the direction of travel.
    pub line: Vec<Place>,
    pub bounds: [Place; 2],
    pub length_m: f64,
}

impl Road {
    /// Whether it runs against its street's line.
    pub fn is_back(&self) -> bool {
        self.id & 1 == 1
    }

    pub fn ends(&self) -> [usize; 2] {
        [self.from, self.to]
    }
}

#[derive(Default)]
pub struct Network {
    pub nodes: Vec<Node>,
    pub streets: Vec<Street>,
    pub roads: Vec<Road>,
    node_by_id: HashMap<u64, usize>,
}

impl Network {
    pub fn read(file: &Path) -> Result<Network, String> {
        let text = std::fs::read_to_string(file).map_err(|e| format!("{}: {e}", file.display()))?;
        Network::parse(&text).map_err(|e| format!("{}, {e}", file.display()))
    }

    /// The network of a text, or what is wrong in which line.
    pub fn parse(text: &str) -> Result<Network, String> {
        let mut network = Network::default();
        for (number, line) in text.lines().enumerate() {
            let record = match line.split_once(',') {
                _ if line.trim().is_empty() || line.starts_with('#') => Ok(()),
                Some(("node", rest)) => network.node(rest),
                Some(("road", rest)) => network.street(rest),
                _ => Err("neither node nor road".to_string()),
            };
            record.map_err(|e| format!("line {}: {e}", number + 1))?;
        }
        Ok(network)
    }

    /// The number of the node with this id.
    pub fn node_number(&self, id: u64) -> Option<usize> {
        self.node_by_id.get(&id).copied()
    }

    pub fn street_of(&self, road: usize) -> &Street {
        &self.streets[self.roads[road].street]
    }

    /// The number of the road with this id, as an answer has it.
    pub fn road_number(&self, id: u64) -> Option<usize> {
        self.roads.iter().position(|road| road.id == id)
    }

    fn node(&mut self, record: &str) -> Result<(), String> {
        let [id, lon, lat] = fields(record)?;
        let id = number(id, "the node's id")?;
        let at = place(lon, lat)?;
        if self.node_by_id.insert(id, self.nodes.len()).is_some() {
            return Err(format!("node {id} is there already"));
        }
        self.nodes.push(Node { id, at });
        Ok(())
    }

    fn street(&mut self, record: &str) -> Result<(), String> {
        let [id, from, to, frc, fow, access, one_way, name, between] = fields(record)?;
        let id = number(id, "the road's id")?;
        let (from, to) = (self.known(from)?, self.known(to)?);
        if self.streets.iter().any(|street| street.id == id) {
            return Err(format!("road {id} is there already"));
        }
        let mut line = vec![self.nodes[from].at];
        for pair in between.split(';').filter(|pair| !pair.trim().is_empty()) {
            let (lon, lat) = pair.trim().split_once(' ').ok_or(format!(
                "{pair:?} is no longitude and latitude with a space between"
            ))?;
            line.push(place(lon, lat)?);
        }
        line.push(self.nodes[to].at);
        let street = self.streets.len();
        self.streets.push(Street {
            id,
            name: name.to_string(),
            frc: up_to(frc, 7, "the class")?,
            fow: up_to(fow, 7, "the form")?,
            access: up_to(access, 1, "the access")? == 1,
        });
        let back: Vec<Place> = line.iter().rev().copied().collect();
        let (length_m, bounds) = (measure::length(&line), measure::bounds(&line));
        let mut add = |id, from, to, line| {
            self.roads.push(Road {
                id,
                street,
                from,
                to,
                line,
                bounds,
                length_m,
            })
        };
        add(2 * id, from, to, line);
        if up_to(one_way, 1, "the one-way mark")? == 0 {
            add(2 * id + 1, to, from, back);
        }
        Ok(())
    }

    fn known(&self, id: &str) -> Result<usize, String> {
        let id = number(id, "a node's id")?;
        self.node_number(id)
            .ok_or(format!("node {id} is not there, or comes later"))
    }
}

fn fields<const N: usize>(record: &str) -> Result<[&str; N], String> {
    let fields: Vec<&str> = record.split(',').map(str::trim).collect();
    let count = fields.len();
    fields
        .try_into()
        .map_err(|_| format!("{count} fields behind the first one instead of {N}"))
}

fn number<T: FromStr>(text: &str, what: &str) -> Result<T, String> {
    text.parse()
        .map_err(|_| format!("{what} {text:?} is no number"))
}

fn up_to(text: &str, most: u8, what: &str) -> Result<u8, String> {
    match number(text, what)? {
        value if value <= most => Ok(value),
        value => Err(format!("{what} {value} is above {most}")),
    }
}

fn place(lon: &str, lat: &str) -> Result<Place, String> {
    let place = Place {
        lon: number(lon, "the longitude")?,
        lat: number(lat, "the latitude")?,
    };
    if (-180.0..=180.0).contains(&place.lon) && (-90.0..=90.0).contains(&place.lat) {
        Ok(place)
    } else {
        Err(format!("{lon} {lat} is no place on earth"))
    }
}
