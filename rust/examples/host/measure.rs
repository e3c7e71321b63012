//! What the original's spatial.rs measures, formula by formula (docs/MEASURE.md). Degrees of WGS84 in, metres and degrees out.

/// The radius of the sphere on which distances are measured, in metres. The original names it as that of `geo`.
pub const EARTH_RADIUS_M: f64 = 6_371_008.8;

/// BEARDIST: a road's bearing is that of a chord of so many metres.
pub const CHORD_M: f64 = 20.0;

/// A place on earth, in degrees.
#[derive(Debug, Clone, Copy, PartialEq)]
pub struct Place {
    pub lon: f64,
    pub lat: f64,
}

/// `Haversine.distance`: metres as the crow flies. The formula is the one that `geo` is known for; its source was not at hand.
pub fn distance(a: Place, b: Place) -> f64 {
    let (lat_a, lat_b) = (a.lat.to_radians(), b.lat.to_radians());
    let half_lat = (b.lat - a.lat).to_radians() / 2.0;
    let half_lon = (b.lon - a.lon).to_radians() / 2.0;
    let h = half_lat.sin().powi(2) + lat_a.cos() * lat_b.cos() * half_lon.sin().powi(2);
    EARTH_RADIUS_M * 2.0 * h.sqrt().asin()
}

/// `Haversine.length`: the distances of a line's neighbours, added up.
pub fn length(line: &[Place]) -> f64 {
    line.windows(2).map(|pair| distance(pair[0], pair[1])).sum()
}

/// Where a place projects onto a line.
#[derive(Debug, Clone, Copy)]
pub struct Projection {
    /// Metres from the place to its projection.
    pub distance_m: f64,
    /// Metres along the line from its start to the projection.
    pub along_m: f64,
    /// Metres of the whole line.
    pub line_m: f64,
}

/// `project_onto_line`: the nearest segment by scaled planar distance, the first if equal. A line has two places at least.
pub fn project(place: Place, line: &[Place]) -> Projection {
    let k = place.lat.to_radians().cos();
    let (mut nearest, mut least, mut along_m) = (line[0], f64::MAX, 0.0);
    let mut line_m = 0.0;
    for pair in line.windows(2) {
        let (closest, t) = project_on_segment(place, pair[0], pair[1]);
        let east = wrap(closest.lon - place.lon) * k;
        let north = closest.lat - place.lat;
        let segment_m = distance(pair[0], pair[1]);
        if east * east + north * north < least {
            least = east * east + north * north;
            (nearest, along_m) = (closest, line_m + t * segment_m);
        }
        line_m += segment_m;
    }
    Projection {
        distance_m: distance(place, nearest),
        along_m,
        line_m,
    }
}

/// `project_point_to_segment`: planar, a degree of longitude scaled by the cosine of the place's latitude.
fn project_on_segment(place: Place, a: Place, b: Place) -> (Place, f64) {
    let k = place.lat.to_radians().cos();
    let (dx, dy) = (wrap(b.lon - a.lon), b.lat - a.lat);
    if dx == 0.0 && dy == 0.0 {
        return (a, 0.0);
    }
    let (px, py) = (wrap(place.lon - a.lon), place.lat - a.lat);
    let t = (px * dx * k * k + py * dy) / (dx * dx * k * k + dy * dy);
    let t = t.clamp(0.0, 1.0);
    (between(a, b, t), t)
}

/// Which side of a place on a line the chord is taken from.
#[derive(Debug, Clone, Copy, PartialEq, Eq)]
pub enum Side {
    /// The stretch after the place: for every point but the last.
    Forward,
    /// The stretch leading up to the place: for the last point.
    Backward,
}

/// `bearing_along`: the bearing of the chord, in the line's direction on either side. A chord is cut short at the line's
/// end; if that leaves no more than 0.5 m the other side's is taken, and if both are that short it is 0.
pub fn bearing_along(line: &[Place], along_m: f64, chord_m: f64, side: Side) -> f64 {
    let back = place_at(line, along_m - chord_m);
    let at = place_at(line, along_m);
    let ahead = place_at(line, along_m + chord_m);
    let chords = match side {
        Side::Forward => [(at, ahead), (back, at)],
        Side::Backward => [(back, at), (at, ahead)],
    };
    let chord = chords.into_iter().find(|(a, b)| distance(*a, *b) > 0.5);
    chord.map_or(0.0, |(a, b)| bearing(a, b))
}

/// `local_bearing`: from a to b on the WGS84 ellipsoid, taken as flat between them; 0 is north, 90 east, below 360.
pub fn bearing(a: Place, b: Place) -> f64 {
    const E2: f64 = 6.694_379_990_141_316e-3;
    let (sin, cos) = ((a.lat + b.lat) / 2.0).to_radians().sin_cos();
    let east_per_north = cos * (1.0 - E2 * sin * sin) / (1.0 - E2);
    let east = wrap(b.lon - a.lon) * east_per_north;
    let north = b.lat - a.lat;
    east.atan2(north).to_degrees().rem_euclid(360.0)
}

/// `bearing_difference`: the smallest angle between two bearings.
pub fn bearing_difference(a: f64, b: f64) -> f64 {
    let difference = (a - b).abs();
    if difference > 180.0 {
        360.0 - difference
    } else {
        difference
    }
}

/// `points_at_distances`, for one distance: the place so many metres along a line, held to its ends.
pub fn place_at(line: &[Place], along_m: f64) -> Place {
    let mut start_m = 0.0;
    for pair in line.windows(2) {
        let segment_m = distance(pair[0], pair[1]);
        if along_m <= start_m + segment_m {
            let t = if segment_m > 0.0 {
                ((along_m - start_m) / segment_m).max(0.0)
            } else {
                0.0
            };
            return between(pair[0], pair[1], t);
        }
        start_m += segment_m;
    }
    line[line.len() - 1]
}

/// The part of a line between two distances along it, with the corners that lie between them.
pub fn part(line: &[Place], from_m: f64, to_m: f64) -> Vec<Place> {
    let mut part = vec![place_at(line, from_m)];
    let mut at_m = 0.0;
    for pair in line.windows(2) {
        at_m += distance(pair[0], pair[1]);
        if from_m < at_m && at_m < to_m {
            part.push(pair[1]);
        }
    }
    part.push(place_at(line, to_m));
    part
}

fn between(a: Place, b: Place, t: f64) -> Place {
    Place {
        lon: wrap(a.lon + t * wrap(b.lon - a.lon)),
        lat: a.lat + t * (b.lat - a.lat),
    }
}

/// A longitude, or a difference of two, the short way round.
fn wrap(lon: f64) -> f64 {
    if lon > 180.0 {
        lon - 360.0
    } else if lon < -180.0 {
        lon + 360.0
    } else {
        lon
    }
}

/// The corners of a line's bounding box: west and south, east and north.
pub fn bounds(line: &[Place]) -> [Place; 2] {
    let [mut low, mut high] = [line[0]; 2];
    for place in line {
        low = Place {
            lon: low.lon.min(place.lon),
            lat: low.lat.min(place.lat),
        };
        high = Place {
            lon: high.lon.max(place.lon),
            lat: high.lat.max(place.lat),
        };
    }
    [low, high]
}

/// The box of a circle, as `find_nearby` has it: exact on the sphere. Its longitudes may lie beyond 180 degrees.
pub fn box_around(centre: Place, radius_m: f64) -> [Place; 2] {
    let r = radius_m / EARTH_RADIUS_M * (1.0 + 1e-9);
    let ratio = r.sin() / centre.lat.to_radians().cos();
    let lon = if ratio < 1.0 {
        ratio.asin().to_degrees()
    } else {
        180.0
    };
    let lat = r.to_degrees();
    [
        Place {
            lon: centre.lon - lon,
            lat: centre.lat - lat,
        },
        Place {
            lon: centre.lon + lon,
            lat: centre.lat + lat,
        },
    ]
}

/// `find_nearby`: whether a circle's box meets a line's. No line within the radius is missed; some farther away pass.
pub fn meets(around: &[Place; 2], line: &[Place; 2]) -> bool {
    let turned =
        |turn: f64| line[0].lon <= around[1].lon + turn && around[0].lon + turn <= line[1].lon;
    let is_high = line[0].lat <= around[1].lat && around[0].lat <= line[1].lat;
    is_high && [0.0, 360.0, -360.0].into_iter().any(turned)
}
