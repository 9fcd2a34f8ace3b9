//! A plain program for measurements: it spells the tile of ways from their places, many small ones or a large one, with
//! zoom levels from 16 to 18, and prints how many bytes it spelled and how long one tile took. For the comparison with
//! `encode`.
//!
//!     rustc -O bench/encode_tile.rs && ./encode_tile WAYS POINTS TIMES

use std::time::Instant;

#[derive(Clone, Copy)]
struct Place {
    lat: i32,
    lon: i32,
}

struct Way {
    zoom: u8,
    layer: i8,
    tags: Vec<u16>,
    name: Option<Vec<u8>>,
    places: Vec<Place>,
}

const CORNER: Place = Place {
    lat: 85_051_128,
    lon: -180_000_000,
};

fn put_unsigned(out: &mut Vec<u8>, mut n: u64) {
    while n >= 128 {
        out.push((128 + n % 128) as u8);
        n /= 128;
    }
    out.push(n as u8);
}

fn put_signed(out: &mut Vec<u8>, z: i64) {
    let mut n = z.unsigned_abs();
    while n >= 64 {
        out.push((128 + n % 128) as u8);
        n /= 128;
    }
    out.push(n as u8 + if z < 0 { 64 } else { 0 });
}

fn size_unsigned(mut n: u64) -> u64 {
    let mut size = 1;
    while n >= 128 {
        size += 1;
        n /= 128;
    }
    size
}

fn size_signed(z: i64) -> u64 {
    let mut n = z.unsigned_abs();
    let mut size = 1;
    while n >= 64 {
        size += 1;
        n /= 128;
    }
    size
}

fn step(from: Place, to: Place) -> (i64, i64) {
    (
        i64::from(to.lat) - i64::from(from.lat),
        i64::from(to.lon) - i64::from(from.lon),
    )
}

fn size_step(step: (i64, i64)) -> u64 {
    size_signed(step.0) + size_signed(step.1)
}

fn put_step(out: &mut Vec<u8>, step: (i64, i64)) {
    put_signed(out, step.0);
    put_signed(out, step.1);
}

// The bytes of all places under single and under double delta.
fn measure(places: &[Place]) -> (u64, u64) {
    let first = size_step(step(CORNER, places[0]));
    let (mut single, mut double) = (first, first);
    let mut last = (0, 0);
    for pair in places.windows(2) {
        let next = step(pair[0], pair[1]);
        single += size_step(next);
        double += size_step((next.0 - last.0, next.1 - last.1));
        last = next;
    }
    (single, double)
}

fn put_places(out: &mut Vec<u8>, places: &[Place], double: bool) {
    put_step(out, step(CORNER, places[0]));
    let mut last = (0, 0);
    for pair in places.windows(2) {
        let next = step(pair[0], pair[1]);
        if double {
            put_step(out, (next.0 - last.0, next.1 - last.1));
        } else {
            put_step(out, next);
        }
        last = next;
    }
}

// The row of a latitude at zoom 2.
fn row(lat: i32) -> u32 {
    let y = f64::from(lat).to_radians() / 1e6;
    let part = (1.0 - (y.tan() + 1.0 / y.cos()).ln() / std::f64::consts::PI) / 2.0;
    (part * 4.0).clamp(0.0, 3.0) as u32
}

fn column(lon: i32) -> u32 {
    (((i64::from(lon) + 180_000_000) * 4 / 360_000_000) as u32).min(3)
}

fn bits(places: &[Place]) -> u16 {
    let (mut south, mut north, mut west, mut east) = (i32::MAX, i32::MIN, i32::MAX, i32::MIN);
    for place in places {
        south = south.min(place.lat);
        north = north.max(place.lat);
        west = west.min(place.lon);
        east = east.max(place.lon);
    }
    let (first_y, last_y) = (row(north), row(south));
    let (first_x, last_x) = (column(west), column(east));
    let mut bits = 0;
    for y in first_y..=last_y {
        for x in first_x..=last_x {
            bits |= 1 << (15 - (4 * y + x));
        }
    }
    bits
}

fn put_way(out: &mut Vec<u8>, way: &Way) {
    let (single, double) = measure(&way.places);
    let is_double = double < single;
    let count = way.places.len() as u64;
    let mut size = 2 + 1 + 1 + 1 + size_unsigned(count) + single.min(double);
    for tag in &way.tags {
        size += size_unsigned(u64::from(*tag));
    }
    if let Some(name) = &way.name {
        size += size_unsigned(name.len() as u64) + name.len() as u64;
    }
    put_unsigned(out, size);
    out.extend_from_slice(&bits(&way.places).to_be_bytes());
    out.push(16 * (way.layer + 5) as u8 + way.tags.len() as u8);
    for tag in &way.tags {
        put_unsigned(out, u64::from(*tag));
    }
    out.push(if way.name.is_some() { 0x80 } else { 0 } + if is_double { 4 } else { 0 });
    if let Some(name) = &way.name {
        put_unsigned(out, name.len() as u64);
        out.extend_from_slice(name);
    }
    put_unsigned(out, 1);
    put_unsigned(out, count);
    put_places(out, &way.places, is_double);
}

fn put_tile(out: &mut Vec<u8>, ways: &[Way]) {
    out.clear();
    let mut counts = [0u64; 3];
    for way in ways {
        counts[usize::from(way.zoom) - 16] += 1;
    }
    for count in counts {
        put_unsigned(out, 0);
        put_unsigned(out, count);
    }
    put_unsigned(out, 0);
    for way in ways {
        put_way(out, way);
    }
}

// The next number of a row.
fn next(state: &mut u64) -> u32 {
    *state = state
        .wrapping_mul(6_364_136_223_846_793_005)
        .wrapping_add(1);
    (*state >> 40) as u32
}

fn near(origin: u32, state: &mut u64) -> i32 {
    (origin + next(state) % 2_001) as i32
}

fn way(points: usize, state: &mut u64) -> Way {
    let lat = next(state) % 1_000_000;
    let lon = next(state) % 1_000_000;
    let mut places = Vec::with_capacity(points);
    for _ in 0..points {
        let lat = near(lat, state);
        let lon = near(lon, state);
        places.push(Place { lat, lon });
    }
    Way {
        zoom: 17,
        layer: 0,
        tags: vec![3, 200],
        name: None,
        places,
    }
}

fn main() {
    let words: Vec<usize> = std::env::args()
        .skip(1)
        .map(|w| w.parse().unwrap())
        .collect();
    let mut state = 1;
    let ways: Vec<Way> = (0..words[0]).map(|_| way(words[1], &mut state)).collect();
    let mut out = Vec::with_capacity(16 * (words[0] * (11 + words[1])) + 256);
    let start = Instant::now();
    for _ in 0..words[2] {
        put_tile(&mut out, &ways);
    }
    let nanos = start.elapsed().as_nanos() / words[2] as u128;
    let sum = out
        .iter()
        .fold(0u64, |a, b| a.wrapping_mul(31).wrapping_add(u64::from(*b)));
    println!("bytes {} sum {} nanos {}", out.len(), sum, nanos);
}
