//! The picture: network, location points with their bearings, the matched path, closed roads in grey. North is up.

use crate::legend;
use crate::located::Located;
use crate::measure::{self, Place};
use crate::reference::Reference;
use crate::sheet::Measurer;
use hemokatu::Kind;

pub const WIDTH: f64 = 1200.0;
/// The heights of title and legend.
const HEAD: f64 = 62.0;
pub const FOOT: f64 = 92.0;
/// Room for the bearing of a point at the edge.
const MARGIN: f64 = BEARING + 8.0;
/// How long the line of a bearing is.
const BEARING: f64 = 44.0;
pub const PATH: &str = "#1f4fd0";
pub const TRIMMED: &str = "#8fb0f4";
pub const POINT: &str = "#c8102e";
pub const CLOSED: &str = "#b4b4b4";

pub struct Picture<'a> {
    pub host: &'a Measurer<'a>,
    pub reference: &'a Reference,
    pub base64: &'a str,
    /// None where nothing was matched.
    pub located: Option<Located>,
    /// The answer in a few words.
    pub result: String,
    pub zoom: bool,
}

/// From degrees to the picture.
struct View {
    west: f64,
    north: f64,
    /// Of a degree of longitude, in degrees of latitude.
    narrow: f64,
    /// Of a degree of latitude, in pixels.
    scale: f64,
    height: f64,
}

/// Colour, colour of the edge and width of a road.
pub fn style(frc: u8, fow: u8) -> (&'static str, &'static str, f64) {
    match (frc, fow) {
        (_, 6) => ("#a9c3de", "#6f8fb3", 2.4),
        (0..=1, _) => ("#e08a7d", "#b85a4d", 4.0),
        (2, _) => ("#f0b95e", "#bf8a34", 5.0),
        (3, _) => ("#f6e08a", "#bda94f", 4.4),
        (4, _) => ("#ffffff", "#a9a59a", 3.8),
        (5, _) => ("#ffffff", "#c4c0b6", 2.6),
        _ => ("#e7d6ee", "#b796c6", 2.6),
    }
}

impl Picture<'_> {
    pub fn draw(&self) -> String {
        let view = self.view();
        let height = HEAD + view.height + FOOT;
        let mut svg = format!(
            "<svg xmlns=\"http://www.w3.org/2000/svg\" width=\"{WIDTH}\" height=\"{height:.0}\" viewBox=\"0 0 {WIDTH} {height:.0}\" font-family=\"sans-serif\">\n\
             <rect width=\"{WIDTH}\" height=\"{height:.0}\" fill=\"#fbfaf7\"/>\n\
             <svg x=\"0\" y=\"{HEAD}\" width=\"{WIDTH}\" height=\"{:.1}\">\n<rect width=\"100%\" height=\"100%\" fill=\"#f1eee6\"/>\n",
            view.height
        );
        self.roads(&view, &mut svg);
        self.path(&view, &mut svg);
        self.points(&view, &mut svg);
        svg += "</svg>\n";
        legend::title(&mut svg, &self.heading(), &self.result, self.base64);
        let metres_per_pixel = 1.0 / (view.scale / (measure::EARTH_RADIUS_M.to_radians()));
        legend::foot(
            &mut svg,
            HEAD + view.height,
            metres_per_pixel,
            self.reference.kind,
            !self.host.closed().is_empty(),
        );
        svg + "</svg>\n"
    }

    fn heading(&self) -> String {
        match self.reference.kind {
            Kind::Line => format!("Line, {} points", self.reference.points.len()),
            Kind::PointAlongLine => "Point along line".to_string(),
            kind => format!("Reference of kind {kind}"),
        }
    }

    fn view(&self) -> View {
        let mut shown: Vec<Place> = self.reference.points.iter().map(|point| point.at).collect();
        match &self.located {
            Some(located) if self.zoom => shown.extend(&located.line),
            // nothing matched: what is around the points
            None if self.zoom && !shown.is_empty() => {}
            _ => shown.extend(self.host.network.nodes.iter().map(|node| node.at)),
        }
        if shown.is_empty() {
            shown.push(Place { lon: 0.0, lat: 0.0 });
        }
        let [low, high] = measure::bounds(&shown);
        let narrow = ((low.lat + high.lat) / 2.0).to_radians().cos();
        // At least 400 m by 250 m, so that a short path has surroundings.
        let metre = 1.0 / measure::EARTH_RADIUS_M.to_radians();
        let width = ((high.lon - low.lon) * narrow).max(400.0 * metre);
        let tall = (high.lat - low.lat).max(250.0 * metre);
        let scale = ((WIDTH - 2.0 * MARGIN) / width).min(900.0 / tall);
        let height = tall * scale + 2.0 * MARGIN;
        View {
            west: (low.lon + high.lon) / 2.0 - WIDTH / 2.0 / scale / narrow,
            north: (low.lat + high.lat) / 2.0 + height / 2.0 / scale,
            narrow,
            scale,
            height,
        }
    }

    /// Every street once, its edge first, the important ones on top. Small arrows show one-way streets.
    fn roads(&self, view: &View, svg: &mut String) {
        let network = self.host.network;
        let mut order: Vec<usize> = (0..network.roads.len())
            .filter(|road| !network.roads[*road].is_back())
            .collect();
        order.sort_by_key(|road| std::cmp::Reverse(network.street_of(*road).frc));
        for edge in [true, false] {
            for &road in order.iter().filter(|road| self.host.is_open(**road)) {
                let street = network.street_of(road);
                let (fill, border, width) = style(street.frc, street.fow);
                let (colour, width) = if edge {
                    (border, width + 1.6)
                } else {
                    (fill, width)
                };
                line(
                    svg,
                    &view.line(&network.roads[road].line),
                    colour,
                    width,
                    "",
                );
            }
        }
        for &road in order.iter().filter(|road| !self.host.is_open(**road)) {
            line(
                svg,
                &view.line(&network.roads[road].line),
                CLOSED,
                5.0,
                " stroke-dasharray=\"7 9\"",
            );
        }
        for &road in &order {
            let r = &network.roads[road];
            let is_one_way = network.road_number(r.id + 1).is_none();
            if is_one_way && self.host.is_open(road) && view.pixels(r.length_m) > 16.0 {
                arrow(svg, view, &r.line, r.length_m / 2.0, "#5d5a52", 3.4);
            }
        }
        for node in &network.nodes {
            let (x, y) = view.at(node.at);
            *svg += &format!("<circle cx=\"{x:.1}\" cy=\"{y:.1}\" r=\"1.3\" fill=\"#77736a\"><title>node {}</title></circle>\n", node.id);
        }
    }

    /// The path, its trimmed ends lighter, with arrows in the direction of travel.
    fn path(&self, view: &View, svg: &mut String) {
        let Some(located) = &self.located else {
            return;
        };
        let part = |from, to| view.line(&measure::part(&located.line, from, to));
        let (from, to) = (located.from_m, located.to_m);
        line(
            svg,
            &part(0.0, located.total_m),
            TRIMMED,
            7.0,
            " stroke-opacity=\"0.9\"",
        );
        match self.reference.kind {
            Kind::PointAlongLine => diamond(svg, view.at(measure::place_at(&located.line, from))),
            _ => line(svg, &part(from, to), PATH, 7.0, ""),
        }
        let step = 70.0 / view.pixels(1.0);
        let arrows = (located.total_m / step).max(1.0) as usize;
        for number in 0..arrows {
            let at_m = located.total_m * (number as f64 + 0.5) / arrows as f64;
            arrow(svg, view, &located.line, at_m, "#ffffff", 3.0);
        }
    }

    /// Each point with its number and its bearing. The last one's leads up to it, for so it is measured.
    fn points(&self, view: &View, svg: &mut String) {
        let count = self.reference.points.len();
        for (number, point) in self.reference.points.iter().enumerate() {
            let (x, y) = view.at(point.at);
            let (sin, cos) = point.bearing.to_radians().sin_cos();
            let (begin, end) = match number + 1 == count {
                true => (-BEARING, -16.0),
                false => (9.0, BEARING),
            };
            let (bx, by, ex, ey) = (
                x + begin * sin,
                y - begin * cos,
                x + end * sin,
                y - end * cos,
            );
            *svg += &format!("<line x1=\"{bx:.1}\" y1=\"{by:.1}\" x2=\"{ex:.1}\" y2=\"{ey:.1}\" stroke=\"#fff\" stroke-width=\"5\" stroke-linecap=\"round\"/>\n");
            *svg += &format!("<line x1=\"{bx:.1}\" y1=\"{by:.1}\" x2=\"{ex:.1}\" y2=\"{ey:.1}\" stroke=\"{POINT}\" stroke-width=\"2.4\"/>\n");
            triangle(svg, (ex, ey), point.bearing, POINT, 6.0);
            *svg += &format!("<circle cx=\"{x:.1}\" cy=\"{y:.1}\" r=\"9\" fill=\"{POINT}\" stroke=\"#fff\" stroke-width=\"1.6\"/>\n");
            *svg += &format!("<text x=\"{x:.1}\" y=\"{:.1}\" font-size=\"11\" font-weight=\"bold\" fill=\"#fff\" text-anchor=\"middle\">{number}</text>\n", y + 4.0);
        }
    }
}

impl View {
    fn at(&self, place: Place) -> (f64, f64) {
        let x = (place.lon - self.west) * self.narrow * self.scale;
        (x, (self.north - place.lat) * self.scale)
    }

    fn line(&self, line: &[Place]) -> Vec<(f64, f64)> {
        line.iter().map(|place| self.at(*place)).collect()
    }

    /// Metres in pixels.
    fn pixels(&self, metres: f64) -> f64 {
        metres / measure::EARTH_RADIUS_M.to_radians() * self.scale
    }
}

fn line(svg: &mut String, places: &[(f64, f64)], colour: &str, width: f64, more: &str) {
    let places: Vec<String> = places
        .iter()
        .map(|(x, y)| format!("{x:.1},{y:.1}"))
        .collect();
    *svg += &format!(
        "<polyline points=\"{}\" fill=\"none\" stroke=\"{colour}\" stroke-width=\"{width:.1}\" stroke-linejoin=\"round\" stroke-linecap=\"round\"{more}/>\n",
        places.join(" ")
    );
}

/// An arrow head on a line.
fn arrow(svg: &mut String, view: &View, places: &[Place], at_m: f64, colour: &str, size: f64) {
    let bearing = measure::bearing_along(places, at_m, 5.0, measure::Side::Forward);
    triangle(
        svg,
        view.at(measure::place_at(places, at_m)),
        bearing,
        colour,
        size,
    );
}

/// A triangle that points along a bearing.
pub fn triangle(svg: &mut String, (x, y): (f64, f64), bearing: f64, colour: &str, size: f64) {
    *svg += &format!(
        "<path d=\"M0,{:.1} L{:.1},{:.1} L{:.1},{:.1} Z\" transform=\"translate({x:.1} {y:.1}) rotate({bearing:.0})\" fill=\"{colour}\"/>\n",
        -size, 0.75 * size, 0.8 * size, -0.75 * size, 0.8 * size
    );
}

/// Where a point along line lies.
pub fn diamond(svg: &mut String, (x, y): (f64, f64)) {
    *svg += &format!(
        "<rect x=\"-7\" y=\"-7\" width=\"14\" height=\"14\" transform=\"translate({x:.1} {y:.1}) rotate(45)\" fill=\"{PATH}\" stroke=\"#fff\" stroke-width=\"1.5\"/>\n"
    );
}
