//! Reads a whole extract with every check that the definitions ask for, and walks all tags, refs and members of its
//! entities. It is what the reader of this repository is measured against, and no part of it:
//!
//!     rustc -O bench/walk_extract.rs -o walk_extract && ./walk_extract FILE
//!
//! It prints the counts of nodes, ways and relations and one sum over all that was walked, or the first fault.

use std::fs::File;
use std::io::{BufReader, Read};

type Answer<T> = Result<T, String>;

fn no<T>(why: &str) -> Answer<T> {
    Err(why.to_string())
}

// ---- the wire format

fn varint(bytes: &[u8], at: &mut usize) -> Option<u64> {
    let mut n = 0u64;
    for i in 0..10 {
        let b = *bytes.get(*at + i)?;
        if i == 9 && b > 1 {
            return None;
        }
        n |= u64::from(b & 127) << (7 * i);
        if b < 128 {
            *at += i + 1;
            return Some(n);
        }
    }
    None
}

fn unzigzag(n: u64) -> i64 {
    (n >> 1) as i64 ^ -((n & 1) as i64)
}

enum Value<'a> {
    Number(u64),
    Bytes(&'a [u8]),
    Fixed,
}

fn field<'a>(bytes: &'a [u8], at: &mut usize) -> Answer<(u64, Value<'a>)> {
    let key = varint(bytes, at).ok_or("a varint")?;
    let number = key / 8;
    if number == 0 || number >= 1 << 29 {
        return no("a field number");
    }
    let value = match key % 8 {
        0 => Value::Number(varint(bytes, at).ok_or("a varint")?),
        1 | 5 => {
            let size = if key % 8 == 1 { 8 } else { 4 };
            if bytes.len() - *at < size {
                return no("a length");
            }
            *at += size;
            Value::Fixed
        }
        2 => {
            let size = varint(bytes, at).ok_or("a varint")?;
            if ((bytes.len() - *at) as u64) < size {
                return no("a length");
            }
            let from = *at;
            *at += size as usize;
            Value::Bytes(&bytes[from..*at])
        }
        _ => return no("a wire type"),
    };
    Ok((number, value))
}

fn is_whole(bytes: &[u8]) -> bool {
    let mut run = 0;
    for b in bytes {
        if run == 9 && *b > 1 {
            return false;
        }
        run = if *b < 128 { 0 } else { run + 1 };
    }
    run == 0
}

#[derive(Clone, Copy, PartialEq)]
enum Form {
    Number,
    Once,
    Many,
    Packed,
}

#[derive(Clone, Copy, Default)]
struct Found<'a> {
    number: Option<u64>,
    bytes: Option<&'a [u8]>,
}

impl<'a> Found<'a> {
    fn packed(self) -> &'a [u8] {
        self.bytes.unwrap_or(&[])
    }
}

fn message<'a, const N: usize>(bytes: &'a [u8], rules: &[(u64, Form); N]) -> Answer<[Found<'a>; N]> {
    let mut all = [Found::default(); N];
    let mut at = 0;
    while at < bytes.len() {
        let (number, value) = field(bytes, &mut at)?;
        let Some(i) = rules.iter().position(|r| r.0 == number) else {
            continue;
        };
        match (rules[i].1, value) {
            (Form::Number, Value::Number(n)) => all[i].number = Some(n),
            (Form::Many, Value::Bytes(b)) => all[i].bytes = all[i].bytes.or(Some(b)),
            (form, Value::Bytes(b)) if form != Form::Number => {
                if all[i].bytes.is_some() {
                    return no("a field comes twice");
                }
                if form == Form::Packed && !is_whole(b) {
                    return no("a packed list");
                }
                all[i].bytes = Some(b);
            }
            _ => return no("a wire type of a field"),
        }
    }
    Ok(all)
}

// ---- header blocks, strings and heads

fn header_block(raw: &[u8]) -> Answer<()> {
    let all = message(raw, &[(1, Form::Once), (4, Form::Many)])?;
    if let Some(bbox) = all[0].bytes {
        let sides = message(bbox, &[1, 2, 3, 4].map(|k| (k, Form::Number)))?;
        let mut s = [0i64; 4];
        for (to, from) in s.iter_mut().zip(&sides) {
            *to = unzigzag(from.number.ok_or("a box")?);
        }
        let far = |z: i64, limit: u64| z.unsigned_abs() > limit;
        if far(s[0], 180_000_000_000)
            || far(s[1], 180_000_000_000)
            || far(s[2], 90_000_000_000)
            || far(s[3], 90_000_000_000)
            || s[0] > s[1]
            || s[3] > s[2]
        {
            return no("a box");
        }
    }
    let mut at = 0;
    while at < raw.len() {
        if let (4, Value::Bytes(b)) = field(raw, &mut at)? {
            if b != b"OsmSchema-V0.6" && b != b"DenseNodes" {
                return no("a required feature");
            }
        }
    }
    Ok(())
}

fn index<'a>(table: &'a [u8], strings: &mut Vec<&'a [u8]>) -> Answer<()> {
    message(table, &[(1, Form::Many)])?;
    let mut at = 0;
    let mut bad = false;
    while at < table.len() {
        if let (1, Value::Bytes(b)) = field(table, &mut at)? {
            if strings.len() >= 4_194_304 {
                return no("too many strings");
            }
            bad |= std::str::from_utf8(b).is_err();
            strings.push(b);
        }
    }
    if bad { no("a string that is no UTF-8") } else { Ok(()) }
}

#[derive(Clone, Copy)]
struct Head {
    granularity: i64,
    lat: i64,
    lon: i64,
}

// ---- entities

#[derive(Default)]
struct Walk {
    kind: usize,
    last: [u64; 3],
    counts: [u64; 3],
    sum: u64,
}

impl Walk {
    fn place(&mut self, kind: usize, id: i64) -> Answer<()> {
        if kind < self.kind {
            return no("the order of kinds");
        }
        if id <= 0 || id as u64 <= self.last[kind] {
            return no("the order of ids");
        }
        Ok(())
    }

    fn note(&mut self, kind: usize, id: i64) {
        self.kind = kind;
        self.last[kind] = id as u64;
        self.counts[kind] += 1;
        self.add(id as u64);
    }

    fn add(&mut self, n: u64) {
        self.sum = self.sum.wrapping_mul(31).wrapping_add(n);
    }

    fn coordinate(&mut self, head: Head, lat: i64, lon: i64) -> Answer<(i32, i32)> {
        let nano = |offset: i64, n: i64| i128::from(offset) + i128::from(head.granularity) * i128::from(n);
        let (y, x) = (nano(head.lat, lat), nano(head.lon, lon));
        if y.unsigned_abs() > 90_000_000_000 || x.unsigned_abs() > 180_000_000_000 {
            return no("a coordinate");
        }
        Ok(((y as i64 / 1000) as i32, (x as i64 / 1000) as i32))
    }

    fn text(&mut self, text: &[u8]) {
        self.add(text.len() as u64 + text.first().map_or(0, |b| u64::from(*b)));
    }
}

fn check_tags(keys: &[u8], vals: &[u8], count: u64) -> Answer<()> {
    let (mut k, mut v) = (0, 0);
    let mut bad = false;
    while k < keys.len() && v < vals.len() {
        bad |= varint(keys, &mut k).unwrap_or(0) >= count;
        bad |= varint(vals, &mut v).unwrap_or(0) >= count;
    }
    if k < keys.len() || v < vals.len() {
        return no("a key without a value");
    }
    if bad { no("a string index") } else { Ok(()) }
}

fn walk_tags(keys: &[u8], vals: &[u8], strings: &[&[u8]], walk: &mut Walk) {
    let (mut k, mut v) = (0, 0);
    while k < keys.len() {
        walk.text(strings[varint(keys, &mut k).unwrap_or(0) as usize]);
        walk.text(strings[varint(vals, &mut v).unwrap_or(0) as usize]);
    }
}

fn node(bytes: &[u8], head: Head, strings: &[&[u8]], walk: &mut Walk) -> Answer<()> {
    let rules = [
        (1, Form::Number),
        (2, Form::Packed),
        (3, Form::Packed),
        (8, Form::Number),
        (9, Form::Number),
    ];
    let all = message(bytes, &rules)?;
    let (Some(id), Some(lat), Some(lon)) = (all[0].number, all[3].number, all[4].number) else {
        return no("a missing field");
    };
    let id = unzigzag(id);
    walk.place(0, id)?;
    let (y, x) = walk.coordinate(head, unzigzag(lat), unzigzag(lon))?;
    check_tags(all[1].packed(), all[2].packed(), strings.len() as u64)?;
    walk.note(0, id);
    walk.add(y as u64 ^ x as u64);
    walk_tags(all[1].packed(), all[2].packed(), strings, walk);
    Ok(())
}

fn run_of(list: &[u8], from: usize, count: u64) -> Answer<usize> {
    let mut at = from;
    while at < list.len() {
        let key = varint(list, &mut at).unwrap_or(0);
        if key == 0 {
            return Ok(at);
        }
        if key >= count {
            return no("a string index");
        }
        if at >= list.len() {
            return no("a key without a value");
        }
        if varint(list, &mut at).unwrap_or(0) >= count {
            return no("a string index");
        }
    }
    no("columns")
}

fn dense(bytes: &[u8], head: Head, strings: &[&[u8]], walk: &mut Walk) -> Answer<()> {
    let all = message(bytes, &[1, 8, 9, 10].map(|k| (k, Form::Packed)))?;
    let [ids, lats, lons, tags] = all.map(Found::packed);
    let count = |list: &[u8]| list.iter().filter(|b| **b < 128).count();
    if count(ids) != count(lats) || count(ids) != count(lons) {
        return no("columns");
    }
    let (mut a, mut b, mut c, mut d) = (0, 0, 0, 0);
    let (mut id, mut lat, mut lon) = (0i64, 0i64, 0i64);
    while a < ids.len() {
        let next = |sum: i64, list: &[u8], at: &mut usize| {
            sum.checked_add(unzigzag(varint(list, at).unwrap_or(0))).ok_or("a range")
        };
        id = next(id, ids, &mut a)?;
        lat = next(lat, lats, &mut b)?;
        lon = next(lon, lons, &mut c)?;
        walk.place(0, id)?;
        let (y, x) = walk.coordinate(head, lat, lon)?;
        let from = d;
        if !tags.is_empty() {
            d = run_of(tags, d, strings.len() as u64)?;
        }
        walk.note(0, id);
        walk.add(y as u64 ^ x as u64);
        let mut at = from;
        while at + 1 < d {
            walk.text(strings[varint(tags, &mut at).unwrap_or(0) as usize]);
            walk.text(strings[varint(tags, &mut at).unwrap_or(0) as usize]);
        }
    }
    if d < tags.len() { no("columns") } else { Ok(()) }
}

fn way(bytes: &[u8], strings: &[&[u8]], walk: &mut Walk) -> Answer<()> {
    let rules = [
        (1, Form::Number),
        (2, Form::Packed),
        (3, Form::Packed),
        (8, Form::Packed),
    ];
    let all = message(bytes, &rules)?;
    let id = all[0].number.ok_or("a missing field")? as i64;
    walk.place(1, id)?;
    check_tags(all[1].packed(), all[2].packed(), strings.len() as u64)?;
    let refs = all[3].packed();
    let (mut at, mut sum) = (0, 0i64);
    while at < refs.len() {
        sum = sum.checked_add(unzigzag(varint(refs, &mut at).unwrap_or(0))).ok_or("a range")?;
    }
    walk.note(1, id);
    walk_tags(all[1].packed(), all[2].packed(), strings, walk);
    let (mut at, mut sum) = (0, 0i64);
    while at < refs.len() {
        sum += unzigzag(varint(refs, &mut at).unwrap_or(0));
        walk.add(sum as u64);
    }
    Ok(())
}

fn check_members(roles: &[u8], ids: &[u8], types: &[u8], count: u64) -> Answer<()> {
    let (mut r, mut i, mut t) = (0, 0, 0);
    let mut sum = 0i64;
    let mut bad = None;
    while r < roles.len() && i < ids.len() && t < types.len() {
        let role = varint(roles, &mut r).unwrap_or(0);
        let id = sum.checked_add(unzigzag(varint(ids, &mut i).unwrap_or(0)));
        let kind = varint(types, &mut t).unwrap_or(0);
        if bad.is_none() {
            bad = match id {
                _ if role >= count => Some("a string index"),
                None => Some("a range"),
                Some(_) if kind >= 3 => Some("a kind of member"),
                Some(next) => {
                    sum = next;
                    None
                }
            };
        }
    }
    if r < roles.len() || i < ids.len() || t < types.len() {
        return no("columns");
    }
    bad.map_or(Ok(()), no)
}

fn relation(bytes: &[u8], strings: &[&[u8]], walk: &mut Walk) -> Answer<()> {
    let rules = [
        (1, Form::Number),
        (2, Form::Packed),
        (3, Form::Packed),
        (8, Form::Packed),
        (9, Form::Packed),
        (10, Form::Packed),
    ];
    let all = message(bytes, &rules)?;
    let id = all[0].number.ok_or("a missing field")? as i64;
    walk.place(2, id)?;
    check_tags(all[1].packed(), all[2].packed(), strings.len() as u64)?;
    let (roles, ids, types) = (all[3].packed(), all[4].packed(), all[5].packed());
    check_members(roles, ids, types, strings.len() as u64)?;
    walk.note(2, id);
    walk_tags(all[1].packed(), all[2].packed(), strings, walk);
    let (mut r, mut i, mut t, mut sum) = (0, 0, 0, 0i64);
    while r < roles.len() {
        walk.text(strings[varint(roles, &mut r).unwrap_or(0) as usize]);
        sum += unzigzag(varint(ids, &mut i).unwrap_or(0));
        let kind = varint(types, &mut t).unwrap_or(0);
        walk.add(sum as u64 ^ kind);
    }
    Ok(())
}

fn group(bytes: &[u8], head: Head, strings: &[&[u8]], walk: &mut Walk) -> Answer<()> {
    let rules = [
        (1, Form::Many),
        (2, Form::Once),
        (3, Form::Many),
        (4, Form::Many),
        (5, Form::Many),
    ];
    let all = message(bytes, &rules)?;
    if all.iter().filter(|f| f.bytes.is_some()).count() > 1 {
        return no("a group of two kinds");
    }
    let mut at = 0;
    while at < bytes.len() {
        match field(bytes, &mut at)? {
            (1, Value::Bytes(b)) => node(b, head, strings, walk)?,
            (2, Value::Bytes(b)) => dense(b, head, strings, walk)?,
            (3, Value::Bytes(b)) => way(b, strings, walk)?,
            (4, Value::Bytes(b)) => relation(b, strings, walk)?,
            _ => {}
        }
    }
    Ok(())
}

fn primitive_block(raw: &[u8], walk: &mut Walk) -> Answer<()> {
    let rules = [
        (1, Form::Once),
        (2, Form::Many),
        (17, Form::Number),
        (19, Form::Number),
        (20, Form::Number),
    ];
    let all = message(raw, &rules)?;
    let mut strings = Vec::new();
    index(all[0].bytes.ok_or("no strings")?, &mut strings)?;
    let head = Head {
        granularity: all[2].number.unwrap_or(100) as i64,
        lat: all[3].number.unwrap_or(0) as i64,
        lon: all[4].number.unwrap_or(0) as i64,
    };
    let mut at = 0;
    while at < raw.len() {
        if let (2, Value::Bytes(b)) = field(raw, &mut at)? {
            group(b, head, &strings, walk)?;
        }
    }
    Ok(())
}

// ---- blobs

fn raw_of(body: &[u8]) -> Answer<&[u8]> {
    let mut rules = [(1, Form::Once); 7];
    for (i, rule) in rules.iter_mut().enumerate() {
        rule.0 = i as u64 + 1;
    }
    rules[1].1 = Form::Number;
    let all = message(body, &rules)?;
    if all[2..].iter().any(|f| f.bytes.is_some()) {
        return no("compressed data");
    }
    let raw = all[0].bytes.ok_or("no raw data")?;
    if all[1].number.is_some_and(|n| n != raw.len() as u64) {
        return no("raw_size");
    }
    Ok(raw)
}

fn part(input: &mut impl Read, size: usize, block: &mut Vec<u8>) -> Answer<()> {
    block.resize(size, 0);
    input.read_exact(block).map_err(|_| "the input is cut short".to_string())
}

fn walk(input: &mut impl Read, walk: &mut Walk) -> Answer<()> {
    let (mut block, mut at) = (Vec::new(), 0u64);
    loop {
        let mut first = [0];
        if input.read(&mut first).map_err(|e| e.to_string())? == 0 {
            return Ok(());
        }
        if at >= 1 << 62 {
            return no("too long");
        }
        part(input, 3, &mut block)?;
        let size = u32::from_be_bytes([first[0], block[0], block[1], block[2]]);
        if size > 65_535 {
            return no("the length of a BlobHeader");
        }
        part(input, size as usize, &mut block)?;
        let all = message(&block, &[(1, Form::Once), (3, Form::Number)])?;
        let kind = all[0].bytes.ok_or("no type")?.to_vec();
        let length = all[1].number.ok_or("no datasize")?;
        if length > 33_554_432 {
            return no("a Blob is too long");
        }
        part(input, length as usize, &mut block)?;
        match kind.as_slice() {
            b"OSMHeader" => header_block(raw_of(&block)?)?,
            b"OSMData" => primitive_block(raw_of(&block)?, walk)?,
            _ => {}
        }
        at += 4 + u64::from(size) + length;
    }
}

fn main() {
    let name = std::env::args().nth(1).expect("a file");
    let mut input = BufReader::with_capacity(1 << 16, File::open(name).expect("the file opens"));
    let mut all = Walk::default();
    match walk(&mut input, &mut all) {
        Ok(()) => println!("{} {} {} {:x}", all.counts[0], all.counts[1], all.counts[2], all.sum),
        Err(fault) => println!("{fault}"),
    }
}
