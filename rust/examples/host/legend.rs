//! What stands above and below the map: title, scale, north, and what the lines mean.

use crate::picture::{diamond, style, triangle, CLOSED, FOOT, PATH, POINT, TRIMMED, WIDTH};
use hemokatu::Kind;

/// The reference and the answer.
pub fn title(svg: &mut String, heading: &str, result: &str, base64: &str) {
    // A long reference is cut: it stands in the text output.
    let mut short: String = base64.chars().take(120).collect();
    if short.len() < base64.len() {
        short += " ...";
    }
    text(
        svg,
        20.0,
        27.0,
        18.0,
        " font-weight=\"bold\"",
        &format!("{heading}: {result}"),
    );
    text(
        svg,
        20.0,
        48.0,
        12.0,
        " font-family=\"monospace\" fill=\"#55524b\"",
        &short,
    );
    triangle(svg, (WIDTH - 34.0, 22.0), 0.0, "#33312c", 9.0);
    text(svg, WIDTH - 39.5, 50.0, 15.0, " font-weight=\"bold\"", "N");
}

/// Scale and legend, from this height on.
pub fn foot(svg: &mut String, top: f64, metres_per_pixel: f64, kind: Kind, has_closed: bool) {
    scale(svg, top + 30.0, metres_per_pixel);
    let roads = [
        (1, 2, "ring road, FRC 1"),
        (3, 6, "ramp, FOW 6"),
        (2, 3, "FRC 2"),
        (3, 3, "FRC 3"),
        (4, 3, "FRC 4"),
        (5, 3, "FRC 5"),
        (6, 3, "yard, FRC 6"),
    ];
    let mut x = 262.0;
    for (frc, fow, name) in roads {
        let (fill, border, width) = style(frc, fow);
        stroke(svg, x, top + 26.0, border, width + 2.0, "");
        stroke(svg, x, top + 26.0, fill, width, "");
        x = named(svg, x, top + 26.0, name);
    }
    if has_closed {
        stroke(svg, x, top + 26.0, CLOSED, 5.0, " stroke-dasharray=\"7 5\"");
        named(svg, x, top + 26.0, "closed");
    }
    let y = top + 58.0;
    let mut x = 262.0;
    let others = match kind {
        Kind::PointAlongLine => {
            diamond(svg, (x + 14.0, y));
            ["location", "path"]
        }
        _ => {
            stroke(svg, x, y, PATH, 7.0, "");
            ["location", "path, trimmed by its offsets"]
        }
    };
    x = named(svg, x, y, others[0]);
    stroke(svg, x, y, TRIMMED, 7.0, "");
    x = named(svg, x, y, others[1]);
    stroke(svg, x, y, POINT, 2.4, "");
    triangle(svg, (x + 30.0, y), 90.0, POINT, 6.0);
    *svg += &format!("<circle cx=\"{x:.1}\" cy=\"{y:.1}\" r=\"7\" fill=\"{POINT}\"/>\n");
    named(
        svg,
        x + 8.0,
        y,
        "location point and bearing; the last one's leads up to it",
    );
    let small = "Small arrows: one way only. Dots: nodes.";
    text(
        svg,
        20.0,
        top + FOOT - 12.0,
        11.0,
        " fill=\"#77736a\"",
        small,
    );
}

/// A bar of a round number of metres, about 150 pixels long.
fn scale(svg: &mut String, y: f64, metres_per_pixel: f64) {
    let wanted = 190.0 * metres_per_pixel;
    let round = [
        10_000.0, 5_000.0, 2_000.0, 1_000.0, 500.0, 200.0, 100.0, 50.0, 20.0, 10.0,
    ];
    let metres = round
        .into_iter()
        .find(|metres| *metres <= wanted)
        .unwrap_or(5.0);
    let end = 20.0 + metres / metres_per_pixel;
    *svg += &format!("<path d=\"M20,{:.1} v8 H{end:.1} v-8\" fill=\"none\" stroke=\"#33312c\" stroke-width=\"2\"/>\n", y - 8.0);
    text(svg, 20.0, y + 17.0, 13.0, "", &format!("{metres} m"));
}

fn stroke(svg: &mut String, x: f64, y: f64, colour: &str, width: f64, more: &str) {
    *svg += &format!("<line x1=\"{x:.1}\" y1=\"{y:.1}\" x2=\"{:.1}\" y2=\"{y:.1}\" stroke=\"{colour}\" stroke-width=\"{width:.1}\"{more}/>\n", x + 28.0);
}

/// Writes a name behind its line, and gives where the next entry begins.
fn named(svg: &mut String, x: f64, y: f64, name: &str) -> f64 {
    text(svg, x + 38.0, y + 4.5, 13.0, "", name);
    x + 38.0 + 7.0 * name.len() as f64 + 20.0
}

fn text(svg: &mut String, x: f64, y: f64, size: f64, more: &str, words: &str) {
    let words = words
        .replace('&', "&amp;")
        .replace('<', "&lt;")
        .replace('>', "&gt;");
    *svg += &format!("<text x=\"{x:.1}\" y=\"{y:.1}\" font-size=\"{size}\"{more}>{words}</text>\n");
}
