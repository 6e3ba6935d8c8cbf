//! A log answered by a table of its answers, as a Rust programmer would write it without a proof.
//!
//!     dispatch_peer plain|fast TABLE LOG
//!
//! Each row of TABLE is a region, a handle, and its answers in their order, each as a number and a line. `plain` keeps
//! the rows in indexmap. `fast` keeps the keys in one run of octets, and finds a row by 32 bits of a hash.
//!
//! Where the log's header has a front before the region, fronts are passed over: there is one front.

use csv::{ByteRecord, Reader, ReaderBuilder};
use indexmap::IndexMap;
use std::error::Error;
use std::fs::File;
use std::io::{stdout, BufWriter, Write};

type Fallible<T> = Result<T, Box<dyn Error>>;

/// Answers that are left for a row: a number of them, each with the same line.
struct Cell {
    left: u32,
    start: u32,
    end: u32,
}

/// What is left for each row: the place of its next cell, and the place behind its last. All lines lie in one run.
#[derive(Default)]
struct Left {
    rows: Vec<(u32, u32)>,
    cells: Vec<Cell>,
    lines: Vec<u8>,
}

impl Left {
    fn take(&mut self, row: usize) -> &[u8] {
        let (next, end) = &mut self.rows[row];
        if next == end {
            return b"spent\n";
        }
        let cell = &mut self.cells[*next as usize];
        cell.left -= 1;
        if cell.left == 0 {
            *next += 1;
        }
        &self.lines[cell.start as usize..cell.end as usize]
    }
}

/// Finds rows by region and handle.
trait Rows {
    fn add(&mut self, region: &[u8], handle: &[u8]);
    fn find(&self, region: &[u8], handle: &[u8]) -> Option<usize>;
}

#[derive(Default)]
struct Plain {
    rows: IndexMap<Vec<u8>, ()>,
    key: std::cell::RefCell<Vec<u8>>,
}

impl Rows for Plain {
    fn add(&mut self, region: &[u8], handle: &[u8]) {
        self.rows.insert([region, handle].join(&0), ());
    }

    fn find(&self, region: &[u8], handle: &[u8]) -> Option<usize> {
        let mut key = self.key.borrow_mut();
        key.clear();
        key.extend_from_slice(region);
        key.push(0);
        key.extend_from_slice(handle);
        self.rows.get_index_of(key.as_slice())
    }
}

/// Where the names of a row lie.
struct Key {
    start: u32,
    cut: u32,
    end: u32,
}

struct Fast {
    octets: Vec<u8>,
    keys: Vec<Key>,
    slots: Vec<(u32, u32)>,
}

const SLOTS: usize = 1 << 15;
const EMPTY: u32 = u32::MAX;

fn hash(seed: u64, octets: &[u8]) -> u64 {
    const MULTIPLIER: u64 = 0x9e37_79b9_7f4a_7c15;
    let mix = |hash: u64, word: u64| (hash.rotate_left(23) ^ word).wrapping_mul(MULTIPLIER);
    let words = octets.chunks_exact(8);
    let last = words.remainder().iter().rev().fold(0, |word, octet| word << 8 | u64::from(*octet));
    let hash = words.fold(seed ^ octets.len() as u64, |hash, word| {
        mix(hash, u64::from_le_bytes(word.try_into().expect("eight octets")))
    });
    mix(hash, last)
}

impl Fast {
    fn of_both(region: &[u8], handle: &[u8]) -> (u32, usize) {
        let hash = hash(hash(0, region), handle);
        (hash as u32, (hash >> 40) as usize % SLOTS)
    }
}

impl Default for Fast {
    fn default() -> Fast {
        Fast { octets: Vec::new(), keys: Vec::new(), slots: vec![(0, EMPTY); SLOTS] }
    }
}

impl Rows for Fast {
    fn add(&mut self, region: &[u8], handle: &[u8]) {
        let (mark, mut at) = Fast::of_both(region, handle);
        while self.slots[at].1 != EMPTY {
            at = (at + 1) % SLOTS;
        }
        self.slots[at] = (mark, self.keys.len() as u32);
        let start = self.octets.len() as u32;
        self.octets.extend_from_slice(region);
        let cut = self.octets.len() as u32;
        self.octets.extend_from_slice(handle);
        self.keys.push(Key { start, cut, end: self.octets.len() as u32 });
    }

    fn find(&self, region: &[u8], handle: &[u8]) -> Option<usize> {
        let (mark, mut at) = Fast::of_both(region, handle);
        loop {
            let (held, row) = self.slots[at];
            if row == EMPTY {
                return None;
            }
            if held == mark {
                let key = &self.keys[row as usize];
                let (start, cut, end) = (key.start as usize, key.cut as usize, key.end as usize);
                if &self.octets[start..cut] == region && &self.octets[cut..end] == handle {
                    return Some(row as usize);
                }
            }
            at = (at + 1) % SLOTS;
        }
    }
}

fn reader(path: &str) -> Fallible<Reader<File>> {
    Ok(ReaderBuilder::new().has_headers(false).flexible(true).buffer_capacity(1 << 16).from_path(path)?)
}

fn read_table<R: Rows>(path: &str, rows: &mut R) -> Fallible<Left> {
    let mut left = Left::default();
    for record in reader(path)?.byte_records() {
        let record = record?;
        rows.add(&record[0], &record[1]);
        let next = left.cells.len() as u32;
        for at in (2..record.len()).step_by(2) {
            let number = std::str::from_utf8(&record[at])?.parse()?;
            let start = left.lines.len() as u32;
            left.lines.extend_from_slice(&record[at + 1]);
            left.lines.push(b'\n');
            left.cells.push(Cell { left: number, start, end: left.lines.len() as u32 });
        }
        left.rows.push((next, left.cells.len() as u32));
    }
    Ok(left)
}

fn answer<R: Rows + Default>(table: &str, log: &str) -> Fallible<()> {
    let mut rows = R::default();
    let mut left = read_table(table, &mut rows)?;
    let mut out = BufWriter::with_capacity(1 << 16, stdout().lock());
    let mut log = reader(log)?;
    let mut record = ByteRecord::new();
    log.read_byte_record(&mut record)?;
    let region = record.len() - 2;
    while log.read_byte_record(&mut record)? {
        match rows.find(&record[region], &record[region + 1]) {
            Some(row) => out.write_all(left.take(row))?,
            None => out.write_all(b"unknown\n")?,
        }
    }
    Ok(out.flush()?)
}

fn main() -> Fallible<()> {
    let words: Vec<String> = std::env::args().collect();
    match words.iter().map(String::as_str).collect::<Vec<_>>()[1..] {
        ["plain", table, log] => answer::<Plain>(table, log),
        ["fast", table, log] => answer::<Fast>(table, log),
        _ => Err("dispatch_peer: plain or fast, a table, a log".into()),
    }
}
