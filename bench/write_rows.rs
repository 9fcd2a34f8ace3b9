//! A plain program for measurements: it writes rows of 39 bytes to a file through std's buffer, and reads them again.
//! It prints a sum of what it read. For the comparison with the writer and the reader of parts.
//!
//!     rustc -O bench/write_rows.rs && ./write_rows FILE ROWS

use std::convert::TryInto;
use std::fs::File;
use std::io::{BufReader, BufWriter, Read, Result, Write};

#[derive(Clone, Copy)]
struct Row {
    interval: u8,
    y: u32,
    x: u32,
    class: u8,
    zoom: u8,
    number: u64,
    place: u32,
    unit: [u8; 16],
}

fn row(n: u64) -> Row {
    Row {
        interval: (n % 3) as u8,
        y: (n % 4_294_967_291) as u32,
        x: (n % 65_536) as u32,
        class: (n % 2) as u8,
        zoom: (n % 18) as u8,
        number: n,
        place: (n % 1_000) as u32,
        unit: [(n % 251) as u8; 16],
    }
}

fn put(row: &Row) -> [u8; 39] {
    let mut out = [0; 39];
    out[0] = row.interval;
    out[1..5].copy_from_slice(&row.y.to_be_bytes());
    out[5..9].copy_from_slice(&row.x.to_be_bytes());
    out[9] = row.class;
    out[10] = row.zoom;
    out[11..19].copy_from_slice(&row.number.to_be_bytes());
    out[19..23].copy_from_slice(&row.place.to_be_bytes());
    out[23..39].copy_from_slice(&row.unit);
    out
}

fn get(bytes: &[u8; 39]) -> Row {
    let number = |from: usize| u32::from_be_bytes(bytes[from..from + 4].try_into().unwrap());
    Row {
        interval: bytes[0],
        y: number(1),
        x: number(5),
        class: bytes[9],
        zoom: bytes[10],
        number: u64::from_be_bytes(bytes[11..19].try_into().unwrap()),
        place: number(19),
        unit: bytes[23..39].try_into().unwrap(),
    }
}

fn sum_of(row: &Row) -> u64 {
    let mut sum = row.number ^ u64::from(row.interval);
    for n in [row.y, row.x, u32::from(row.class ^ row.zoom), row.place, u32::from(row.unit[7])] {
        sum = sum.wrapping_mul(31).wrapping_add(u64::from(n));
    }
    sum
}

fn main() -> Result<()> {
    let words: Vec<String> = std::env::args().collect();
    let rows: u64 = words[2].parse().expect("a number of rows");
    let mut out = BufWriter::with_capacity(1 << 16, File::create(&words[1])?);
    for n in 0..rows {
        out.write_all(&put(&row(n)))?;
    }
    out.flush()?;
    let mut input = BufReader::with_capacity(1 << 16, File::open(&words[1])?);
    let mut bytes = [0; 39];
    let mut sum = 0u64;
    for _ in 0..rows {
        input.read_exact(&mut bytes)?;
        sum = sum.wrapping_add(sum_of(&get(&bytes)));
    }
    println!("{sum:x}");
    std::fs::remove_file(&words[1])
}
