//! Charges a decoded path: `charge [FILE]` decodes a sheet, or sheets/s1.sheet, and says what each road of the path costs.
//! Ends with 0 for a charge, 1 for a refusal, 2 for a file that cannot be read.

use hemokatu::{fields, Decoder, Part, RoadOnPath, Tariff, Value};
use std::collections::HashMap;
use std::process::ExitCode;

/// 90 cents for each started metre on class 0, 20 on class 7.
const TARIFF: Tariff = Tariff {
    cents: [90, 80, 70, 60, 50, 40, 30, 20],
};

fn main() -> ExitCode {
    let sample = concat!(env!("CARGO_MANIFEST_DIR"), "/../sheets/s1.sheet");
    let file = std::env::args().nth(1).unwrap_or(sample.to_string());
    let sheet = match std::fs::read(&file) {
        Ok(sheet) => sheet,
        Err(e) => {
            eprintln!("charge: {file}: {e}");
            return ExitCode::from(2);
        }
    };
    match charge(&sheet) {
        Ok(text) => print!("{text}"),
        Err(refusal) => {
            println!("not charged: {refusal}");
            return ExitCode::from(1);
        }
    }
    ExitCode::SUCCESS
}

fn charge(sheet: &[u8]) -> Result<String, Box<dyn std::error::Error>> {
    let mut decoder = Decoder::new();
    let found = decoder.decode(sheet)?;
    let classes = classes(sheet);
    let mut path = vec![];
    let mut text = String::new();
    for (id, length_m) in found.roads() {
        let frc = classes[&id];
        let road = RoadOnPath { frc, length_m };
        let cents = TARIFF.charge(&[road])?.total;
        text += &format!("road {id}, class {frc}, {length_m} m: {cents} cents\n");
        path.push(road);
    }
    let charge = TARIFF.charge(&path)?;
    for (class, cents) in charge.amounts.iter().enumerate().filter(|(_, c)| **c > 0) {
        text += &format!("class {class}: {cents} cents\n");
    }
    Ok(format!("{text}total: {} cents\n", charge.total))
}

/// The class of each road by its id. A host knows it from its own map; here the sheet has it.
fn classes(sheet: &[u8]) -> HashMap<u64, u8> {
    let class = |field: hemokatu::Field| match (field.part, field.name, field.value) {
        (Part::Road { id, .. }, "FRC", Value::Number(frc)) => Some((id, frc as u8)),
        _ => None,
    };
    fields(sheet).filter_map(class).collect()
}
