//! The command line.

use crate::encode::Location;
use std::collections::BTreeSet;
use std::path::PathBuf;
use std::str::FromStr;

pub const HELP: &str = "\
A whole host: reads a road network and an OpenLR reference, measures, lays out the sheet, decodes it, says the roads in
words and draws them. Without crates; base64, format and geometry are this example's own and no part of the library.

  host --from NODE --to NODE     writes the reference of the shortest path between two nodes (ramps and access roads
                                 count as longer, as in the decoder's search), then decodes it
  host --reference BASE64        decodes a reference of the binary format, version 3

  --offset METRES       with --from: the location begins so far into the path
  --end-offset METRES   with --from: it ends so far before the path's end
  --point METRES        with --from: it is a point along line, so far along the path
  --closed ID,ID,...    roads that are left out of the sheet, and grey in the picture
  --last-bearing WAY    travel: references have the last point's bearing in the direction of travel, as the decoder wants
                        it; back: along the line backwards, as the White Paper has it. travel if not given
  --whole               all of the network on the sheet, not the part that can matter
  --network FILE        another network; the town that ships with this if not given
  --svg FILE            where the picture goes; host.svg if not given
  --zoom                the picture shows the surroundings of the path, or of the points where there is none, not all
                        of the network
  --help                this text

It ends with 0 for a path, 1 for a refusal and 2 for anything else.
";

pub enum Source {
    Nodes {
        from: u64,
        to: u64,
        location: Location,
    },
    Reference(String),
}

pub struct Arguments {
    pub source: Source,
    pub closed: BTreeSet<u64>,
    pub back: bool,
    pub whole: bool,
    /// None for the town.
    pub network: Option<PathBuf>,
    pub svg: PathBuf,
    pub zoom: bool,
}

#[derive(Default)]
struct Given {
    from: Option<u64>,
    to: Option<u64>,
    offset: Option<f64>,
    end_offset: Option<f64>,
    point: Option<f64>,
    reference: Option<String>,
}

impl Arguments {
    /// None where only help is wanted.
    pub fn parse(arguments: impl Iterator<Item = String>) -> Result<Option<Arguments>, String> {
        let mut given = Given::default();
        let mut all = Arguments {
            source: Source::Reference(String::new()),
            closed: BTreeSet::new(),
            back: false,
            whole: false,
            network: None,
            svg: "host.svg".into(),
            zoom: false,
        };
        let mut rest = arguments;
        while let Some(name) = rest.next() {
            let mut value = || rest.next().ok_or(format!("{name} needs a value"));
            match name.as_str() {
                "--help" | "-h" => return Ok(None),
                "--zoom" => all.zoom = true,
                "--whole" => all.whole = true,
                "--from" => given.from = Some(number(&name, &value()?)?),
                "--to" => given.to = Some(number(&name, &value()?)?),
                "--offset" => given.offset = Some(metres(&name, &value()?)?),
                "--end-offset" => given.end_offset = Some(metres(&name, &value()?)?),
                "--point" => given.point = Some(metres(&name, &value()?)?),
                "--reference" => given.reference = Some(value()?),
                "--network" => all.network = Some(value()?.into()),
                "--svg" => all.svg = value()?.into(),
                "--last-bearing" => {
                    all.back = match value()?.as_str() {
                        "travel" => false,
                        "back" => true,
                        other => {
                            return Err(format!("--last-bearing is travel or back, not {other:?}"))
                        }
                    }
                }
                "--closed" => {
                    for id in value()?.split(',') {
                        all.closed.insert(number(&name, id)?);
                    }
                }
                _ => return Err(format!("{name:?} is not known; --help says what is")),
            }
        }
        all.source = given.source()?;
        Ok(Some(all))
    }
}

impl Given {
    fn source(self) -> Result<Source, String> {
        let is_laid = self.offset.is_some() || self.end_offset.is_some() || self.point.is_some();
        match (self.reference, self.from, self.to) {
            (Some(reference), None, None) if !is_laid => Ok(Source::Reference(reference)),
            (None, Some(from), Some(to)) => {
                let location = match self.point {
                    None => Location::Line {
                        start_m: self.offset.unwrap_or(0.0),
                        end_m: self.end_offset.unwrap_or(0.0),
                    },
                    Some(at_m) if self.offset.is_none() && self.end_offset.is_none() => Location::Point {
                        at_m,
                        side: 0,
                        orientation: 1,
                    },
                    Some(_) => return Err("--point goes with neither --offset nor --end-offset".to_string()),
                };
                Ok(Source::Nodes { from, to, location })
            }
            _ => Err("give either --from and --to, with what is laid between them, or --reference; --help says more".to_string()),
        }
    }
}

fn number<T: FromStr>(name: &str, text: &str) -> Result<T, String> {
    text.trim()
        .parse()
        .map_err(|_| format!("{name}: {text:?} is no number"))
}

fn metres(name: &str, text: &str) -> Result<f64, String> {
    match number(name, text)? {
        metres if (0.0..=1e7).contains(&metres) => Ok(metres),
        metres => Err(format!("{name}: {metres} is below 0 or above 10,000,000")),
    }
}
