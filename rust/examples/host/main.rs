//! A whole host, from an OpenLR reference to a picture: an example, not a part of the library. It reads a road network
//! with coordinates, reads or writes a reference, measures as docs/MEASURE.md says, builds the sheet, decodes it, says
//! the roads in words and draws them.
//!
//! `cargo run --example host -- --from 12 --to 87` tries it; `-- --help` says the rest.

mod arguments;
mod base64;
mod binary;
mod encode;
mod legend;
mod located;
mod measure;
mod network;
mod part;
mod picture;
mod reference;
mod route;
mod sheet;
#[cfg(test)]
mod tests;
mod words;

use arguments::{Arguments, Source, HELP};
use hemokatu::Decoder;
use located::Located;
use network::Network;
use picture::Picture;
use reference::Reference;
use route::Routes;
use sheet::Measurer;
use std::io::Write;
use std::process::ExitCode;

/// The network that ships with this.
const TOWN: &str = include_str!("town.csv");

fn main() -> ExitCode {
    let mut text = String::new();
    let ended = run(std::env::args().skip(1), &mut text);
    // Whoever reads may have gone.
    let _ = std::io::stdout().write_all(text.as_bytes());
    match ended {
        Ok(true) => ExitCode::SUCCESS,
        Ok(false) => ExitCode::from(1),
        Err(error) => {
            eprintln!("host: {error}");
            ExitCode::from(2)
        }
    }
}

/// Whether there is a path. What is said of it is added to the text.
fn run(words: impl Iterator<Item = String>, text: &mut String) -> Result<bool, String> {
    let Some(arguments) = Arguments::parse(words)? else {
        *text += HELP;
        return Ok(true);
    };
    let network = match &arguments.network {
        Some(file) => Network::read(file)?,
        None => Network::parse(TOWN)?,
    };
    let mut host = Measurer::new(&network);
    host.cut = !arguments.whole;
    host.close(arguments.closed.clone());
    for id in host.closed() {
        if !network.streets.iter().any(|street| street.id == *id) {
            return Err(format!("no road {id} to close"));
        }
    }

    let base64 = match &arguments.source {
        Source::Reference(base64) => base64.trim().to_string(),
        Source::Nodes { .. } => written(&host, &arguments)?,
    };
    let mut reference = read(&base64).map_err(|e| format!("reference {base64:?}: {e}"))?;
    if arguments.back {
        reference.turn_last_bearing();
    }
    *text += &format!("reference {base64}\n{}", words::of_reference(&reference));

    let sheet = host.sheet(&reference)?;
    let mut decoder = Decoder::new();
    let found = decoder.decode(&sheet);
    let mut picture = Picture {
        host: &host,
        reference: &reference,
        base64: &base64,
        located: None,
        result: String::new(),
        zoom: arguments.zoom,
    };
    match &found {
        Ok(found) => {
            let located = Located::new(&network, &reference, found)
                .ok_or("the answer names a road that is not there")?;
            *text += &words::of_match(&network, &reference, found, &located);
            picture.result = format!(
                "{}, {:.0} m from the first point to the last",
                words::counted(found.ids.len(), "road"),
                found.length_m
            );
            picture.located = Some(located);
        }
        Err(refusal) => {
            picture.result = format!("refused {}: {refusal}", refusal.number());
            *text += &format!("{}\n", picture.result);
        }
    }
    let svg = &arguments.svg;
    std::fs::write(svg, picture.draw()).map_err(|e| format!("{}: {e}", svg.display()))?;
    *text += &format!("picture: {}\n", svg.display());
    Ok(found.is_ok())
}

fn read(base64: &str) -> Result<Reference, String> {
    binary::read(&base64::read(base64)?)
}

/// The base64 of the shortest path's reference.
fn written(host: &Measurer, arguments: &Arguments) -> Result<String, String> {
    let Source::Nodes { from, to, location } = arguments.source else {
        return Err("no nodes".to_string());
    };
    let node = |id| host.network.node_number(id).ok_or(format!("no node {id}"));
    let (start, end) = (node(from)?, node(to)?);
    if start == end {
        return Err(format!("from node {from} to itself there is no path"));
    }
    let routes = Routes::new(host);
    let path = routes.path(&routes.tree(start), start, end);
    let path = path.ok_or(format!("no way from node {from} to node {to}"))?;
    let mut reference = encode::encode(&routes, &path, location)
        .map_err(|e| format!("the path from node {from} to node {to}: {e}"))?;
    if arguments.back {
        reference.turn_last_bearing();
    }
    Ok(base64::write(&binary::write(&reference)?))
}
