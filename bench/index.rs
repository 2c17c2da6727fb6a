//! What `bench_rows` does with an index over integers, over a `BTreeSet` of Rust's std, for `index.py` to compare with.

use std::collections::BTreeSet;
use std::io::stdin;

type Index = BTreeSet<(i64, u64)>;

struct Random(u64);

impl Random {
    fn below(&mut self, limit: u64) -> u64 {
        self.0 = self.0.wrapping_mul(6_364_136_223_846_793_005).wrapping_add(1_442_695_040_888_963_407);
        (self.0 >> 33) % limit.max(1)
    }
}

fn table(size: u64) -> Vec<Vec<i64>> {
    (0..size).map(|n| vec![n as i64]).collect()
}

fn built(table: &[Vec<i64>]) -> Index {
    let mut index = Index::new();
    for (number, row) in table.iter().enumerate() {
        index.insert((row[0], number as u64));
    }
    index
}

fn adds(count: u64, size: u64) -> u64 {
    let mut random = Random(1);
    let mut index = Index::new();
    let mut full = 0;
    for number in 0..count {
        index.insert((random.below(1 << 31) as i64, number));
        if index.len() as u64 >= size {
            index = Index::new();
            full += 1;
        }
    }
    full
}

fn turns(index: &mut Index, count: u64, size: u64) -> u64 {
    let mut random = Random(1);
    let mut found = 0;
    for _ in 0..count {
        let number = random.below(size);
        if index.remove(&(number as i64, number)) {
            index.insert((number as i64, number));
            found += 1;
        }
    }
    found
}

fn ranges(index: &Index, count: u64, size: u64) -> u64 {
    let mut random = Random(1);
    (0..count)
        .map(|_| {
            let value = random.below(size) as i64;
            index.range((value, 0)..=(value, u64::MAX)).count() as u64
        })
        .sum()
}

fn make(call: &str, count: u64, size: u64) -> u64 {
    match call {
        "table" => table(size).len() as u64,
        "build" => {
            let table = table(size);
            let index = built(&table);
            ranges(&index, 1, size)
        }
        "add" => adds(count, size),
        "range" => ranges(&built(&table(size)), count, size),
        _ => turns(&mut built(&table(size)), count, size),
    }
}

fn main() {
    for line in stdin().lines() {
        let line = line.unwrap();
        let words: Vec<&str> = line.split(' ').collect();
        let answer = make(words[1], words[2].parse().unwrap(), words[3].parse().unwrap());
        println!("{line}: {answer}");
    }
}
