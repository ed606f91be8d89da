//! Request lines: good, refused, damaged, and of lengths around the longest.

use crate::seeded::Seeded;
use crate::sets::{accepted, any_value, Kind, KINDS};

pub const KEY_BYTES: &[u8] = b"ABCXYZabcxyz0123456789-";
const ODD_BYTES: &[u8] = b"\t\t\t\n.--LAI013 \r\0\xff,+eE";
const ODD_BANDS: [&[u8]; 32] = [
    b"-", b"", b"0.0", b"-0.0", b"L-0.0", b"L0.0", b"-0.1", b"L-0.1", b"00.0", b"01.5", b"1.00",
    b"1000.0", b"150.0", b"150.1", b"-20.0", b"-20.1", b"999.9", b"L-999.9", b"50", b"50.", b".5",
    b"L", b"L-", b"--5.0", b"LL5.0", b"-L5.0", b"5.0L", b"5,0", b"+5.0", b" 5.0", b"1e1", b"\0",
];

pub fn key(seeded: &mut Seeded) -> Vec<u8> {
    let length = if seeded.chance(6) { seeded.below(35) } else { 1 + seeded.below(8) };
    (0..length).map(|_| seeded.pick(KEY_BYTES)).collect()
}

/// A band as a request has it.
fn band(tenths: i32, limit: bool) -> Vec<u8> {
    let sign = if tenths < 0 { "-" } else { "" };
    let size = tenths.unsigned_abs();
    let mark = if limit { "L" } else { "" };
    format!("{mark}{sign}{}.{}", size / 10, size % 10).into_bytes()
}

fn joined(kind: &[u8], key: &[u8], bands: &[Vec<u8>]) -> Vec<u8> {
    let mut line = [kind, b"\t", key].concat();
    for band in bands {
        line.push(b'\t');
        line.extend(band);
    }
    line.push(b'\n');
    line
}

fn name(kind: &Kind) -> &'static [u8] {
    [b"A3", b"A1", b"I3", b"I1"][kind.number as usize]
}

/// A request that is rated, or refused for its bands.
fn request(seeded: &mut Seeded) -> Vec<u8> {
    let kind = &KINDS[seeded.below(4)];
    let mut tenths = accepted(seeded, kind);
    if seeded.chance(10) {
        let length = seeded.below(24);
        tenths.resize_with(length, || any_value(seeded) % 10_000);
    }
    let one_limit_in = seeded.pick(&[4, 30, 1000]);
    let mut bands: Vec<Vec<u8>> =
        tenths.iter().map(|&value| band(value, seeded.chance(one_limit_in))).collect();
    if seeded.chance(6) && !bands.is_empty() {
        let place = seeded.below(bands.len());
        bands[place] = seeded.pick(&ODD_BANDS).to_vec();
    }
    joined(name(kind), &key(seeded), &bands)
}

/// A line with one to three bytes lost, put in, changed or exchanged.
fn damaged(seeded: &mut Seeded, mut line: Vec<u8>) -> Vec<u8> {
    for _ in 0..seeded.between(1, 3) {
        if line.is_empty() {
            break;
        }
        let place = seeded.below(line.len());
        let byte = if seeded.chance(2) { seeded.pick(ODD_BYTES) } else { seeded.next() as u8 };
        match seeded.below(4) {
            0 => drop(line.remove(place)),
            1 => line.insert(place, byte),
            2 => line[place] = byte,
            _ => line.swap(place, place.saturating_sub(1)),
        }
    }
    line
}

/// A line of request shape with a length around 512 bytes.
fn long(seeded: &mut Seeded) -> Vec<u8> {
    let length = seeded.between(505, 520) as usize;
    let short = seeded.chance(2);
    let mut bands = vec![if short { b"-".to_vec() } else { b"50.0".to_vec() }];
    let mut line = joined(b"A3", b"k", &bands);
    while line.len() < length {
        let missing = length - line.len();
        bands.push(if missing == 2 || short { b"-".to_vec() } else { b"9.9".to_vec() });
        line = joined(b"A3", &b"k".repeat(1 + seeded.below(missing.min(4))), &bands);
    }
    line
}

/// One line for the line call, mostly with its line feed.
pub fn line(seeded: &mut Seeded) -> Vec<u8> {
    match seeded.below(16) {
        0..=8 => request(seeded),
        9..=12 => {
            let line = request(seeded);
            damaged(seeded, line)
        }
        13 => long(seeded),
        14 => {
            let mut line = request(seeded);
            line.truncate(seeded.below(line.len() + 1));
            line
        }
        _ => (0..seeded.below(600)).map(|_| seeded.next() as u8).collect(),
    }
}

/// A stream of lines, some very long; mostly it ends with a line feed.
pub fn stream(seeded: &mut Seeded) -> Vec<u8> {
    let mut bytes = Vec::new();
    for _ in 0..seeded.below(24) {
        bytes.extend(line(seeded));
        if seeded.chance(12) {
            let length = seeded.pick(&[500, 511, 512, 513, 700, 1024, 3000]);
            bytes.extend(std::iter::repeat_n(seeded.pick(b"x\t-\0L"), length));
        }
        if seeded.chance(10) {
            bytes.push(b'\n');
        }
    }
    if seeded.chance(2) {
        bytes.push(b'\n');
    }
    bytes
}
