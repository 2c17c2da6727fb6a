//! What `bench_rows` does, over a `BTreeMap` of Rust's std, for `rows.py` to compare with.

use std::collections::BTreeMap;
use std::io::stdin;

#[allow(dead_code)]
enum Value {
    Int(i64),
    Text(Box<Vec<u8>>),
}

type Row = Vec<Value>;

fn group_size(mut n: u64) -> u64 {
    let mut size = 1;
    while n >= 128 {
        n /= 128;
        size += 1;
    }
    size
}

fn row_size(row: &[Value]) -> u64 {
    let mut size = 0;
    for value in row {
        size += match value {
            Value::Int(n) => 1 + group_size(((n << 1) ^ (n >> 63)) as u64),
            Value::Text(text) => 1 + group_size(text.len() as u64) + text.len() as u64,
        };
    }
    size
}

#[derive(Default)]
struct Table {
    rows: BTreeMap<u64, Row>,
    next: u64,
    bytes: u64,
}

impl Table {
    fn insert(&mut self, row: Row) -> Option<u64> {
        let size = row_size(&row);
        if self.rows.len() >= 65_536 || size > 1_024 {
            return None;
        }
        let number = self.next;
        self.bytes += size;
        self.rows.insert(number, row);
        self.next += 1;
        Some(number)
    }

    fn remove(&mut self, number: u64) -> Option<Row> {
        let row = self.rows.remove(&number)?;
        self.bytes -= row_size(&row);
        Some(row)
    }

    fn replace(&mut self, number: u64, row: Row) -> Result<Row, Row> {
        let Some(stored) = self.rows.get_mut(&number) else {
            return Err(row);
        };
        self.bytes += row_size(&row);
        let old = std::mem::replace(stored, row);
        self.bytes -= row_size(&old);
        Ok(old)
    }

    fn get(&self, number: u64) -> Option<&Row> {
        self.rows.get(&number)
    }
}

struct Random(u64);

impl Random {
    fn below(&mut self, limit: u64) -> u64 {
        self.0 = self.0.wrapping_mul(6_364_136_223_846_793_005).wrapping_add(1_442_695_040_888_963_407);
        (self.0 >> 33) % limit.max(1)
    }
}

fn row_of(n: i64) -> Row {
    let mut row = Vec::with_capacity(1);
    row.push(Value::Int(n));
    row
}

fn filled(size: u64) -> Table {
    let mut table = Table::default();
    for _ in 0..size {
        table.insert(row_of(7));
    }
    table
}

fn inserts(count: u64, size: u64) -> u64 {
    let mut table = Table::default();
    let mut full = 0;
    for _ in 0..count {
        table.insert(row_of(7));
        if table.rows.len() as u64 >= size {
            table = Table::default();
            full += 1;
        }
    }
    full
}

fn gets(table: &Table, count: u64) -> u64 {
    let mut random = Random(1);
    (0..count).filter(|_| table.get(random.below(table.next)).is_some()).count() as u64
}

fn replaces(table: &mut Table, count: u64) -> u64 {
    let mut random = Random(1);
    (0..count).filter(|_| table.replace(random.below(table.next), row_of(8)).is_ok()).count() as u64
}

fn turns(table: &mut Table, count: u64) -> u64 {
    let mut random = Random(1);
    let mut numbers: Vec<u64> = (0..table.next).collect();
    let mut last = 0;
    for _ in 0..count {
        let at = random.below(numbers.len() as u64) as usize;
        table.remove(numbers[at]);
        last = table.insert(row_of(7)).unwrap_or(0);
        numbers[at] = last;
    }
    last
}

fn make(call: &str, count: u64, size: u64) -> u64 {
    match call {
        "insert" => inserts(count, size),
        "fill" => filled(size).rows.len() as u64,
        "get" => gets(&filled(size), count),
        "replace" => replaces(&mut filled(size), count),
        _ => turns(&mut filled(size), count),
    }
}

fn main() {
    for line in stdin().lines() {
        let line = line.unwrap();
        let words: Vec<&str> = line.split(' ').collect();
        let answer = make(words[1], words[2].parse().unwrap(), words[3].parse().unwrap());
        println!("{line}: {answer}");
    }
}
