//! A plain program for measurements: it joins the parts of one relation to rings, finds the home of each inner ring,
//! and prints how many rings there are and how long it took. For the comparison with `assemble`. So many parts make a
//! ring, each has so many points, and each other one is reversed.
//!
//!     rustc -O bench/join_rings.rs && ./join_rings PARTS RING POINTS

use std::time::Instant;

#[derive(Clone, Copy)]
struct Point {
    node: u64,
    lat: i32,
    lon: i32,
}

struct Part {
    outer: bool,
    used: bool,
    points: Vec<Point>,
}

// The first part of a role that is free and has a node at one of its ends.
fn take(parts: &mut [Part], outer: bool, end: Option<u64>) -> Option<usize> {
    let fits = |part: &Part| match end {
        Some(end) => {
            part.points.first().map_or(0, |p| p.node) == end
                || part.points.last().map_or(0, |p| p.node) == end
        }
        None => true,
    };
    let at = parts
        .iter()
        .position(|part| !part.used && part.outer == outer && fits(part))?;
    parts[at].used = true;
    Some(at)
}

fn join_ring(parts: &mut [Part], outer: bool, start: usize) -> Option<Vec<Point>> {
    let mut ring = parts[start].points.clone();
    let first = ring[0].node;
    let mut last = ring[ring.len() - 1].node;
    while last != first {
        let points = &parts[take(parts, outer, Some(last))?].points;
        if points[0].node == last {
            ring.extend_from_slice(&points[1..]);
        } else {
            ring.extend(points.iter().rev().skip(1));
        }
        last = ring[ring.len() - 1].node;
    }
    Some(ring)
}

fn join(parts: &mut [Part], outer: bool) -> Option<Vec<Vec<Point>>> {
    let mut rings = Vec::new();
    while let Some(start) = take(parts, outer, None) {
        rings.push(join_ring(parts, outer, start)?);
    }
    Some(rings)
}

fn is_crossed(p: Point, a: Point, b: Point) -> bool {
    let (a, b) = if a.lat <= b.lat { (a, b) } else { (b, a) };
    let across = i128::from(i64::from(b.lon) - i64::from(a.lon))
        * i128::from(i64::from(p.lat) - i64::from(a.lat));
    let west = i128::from(i64::from(p.lon) - i64::from(a.lon))
        * i128::from(i64::from(b.lat) - i64::from(a.lat));
    (a.lat > p.lat) != (b.lat > p.lat) && across > west
}

fn is_inside(ring: &[Point], p: Point) -> bool {
    ring.windows(2)
        .filter(|edge| is_crossed(p, edge[0], edge[1]))
        .count()
        % 2
        == 1
}

fn assemble(parts: &mut [Part]) -> Option<Vec<Vec<Point>>> {
    let outer = join(parts, true)?;
    let inner = join(parts, false)?;
    let homes: Vec<Option<usize>> = inner
        .iter()
        .map(|ring| outer.iter().position(|around| is_inside(around, ring[0])))
        .collect();
    let mut rings = Vec::new();
    for (home, ring) in outer.into_iter().enumerate() {
        rings.push(ring);
        rings.extend(
            inner
                .iter()
                .zip(&homes)
                .filter(|(_, at)| **at == Some(home))
                .map(|(ring, _)| ring.clone()),
        );
    }
    Some(rings)
}

fn node_of(part: u64, point: u64, ring: u64, points: u64) -> u64 {
    if point + 1 < points {
        return part * points + point;
    }
    let next = if part % ring == ring - 1 {
        part - part % ring
    } else {
        part + 1
    };
    next * points
}

fn part_of(part: u64, ring: u64, points: u64) -> Part {
    let point = |i: u64| {
        let node = node_of(
            part,
            if part % 2 == 0 { i } else { points - 1 - i },
            ring,
            points,
        );
        Point {
            node,
            lat: (node % 100) as i32,
            lon: (node % 99) as i32,
        }
    };
    Part {
        outer: true,
        used: false,
        points: (0..points).map(point).collect(),
    }
}

fn main() {
    let words: Vec<u64> = std::env::args()
        .skip(1)
        .map(|word| word.parse().unwrap())
        .collect();
    let [count, ring, points] = words[..] else {
        panic!("PARTS RING POINTS")
    };
    for _ in 0..5 {
        let mut parts: Vec<Part> = (0..count).map(|part| part_of(part, ring, points)).collect();
        let start = Instant::now();
        let rings = assemble(&mut parts);
        let took = start.elapsed().as_micros();
        println!(
            "rings {} microseconds {took}",
            rings.map_or(0, |rings| rings.len())
        );
    }
}
