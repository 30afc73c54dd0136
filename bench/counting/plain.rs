//! The calls of `bench/counting/run` in plain Rust, by sorting alone: `plain CALL LEFT RIGHT`.
use std::{env, fs, io};

const P: u64 = 0xffff_ffff_0000_0001;
const NOWHERE: u64 = 1 << 40;
const FILL_LIMIT: u64 = 1 << 21;

type Pair = (u64, u64);

fn values(bytes: &[u8]) -> Vec<u64> {
    bytes.chunks_exact(8).map(|eight| u64::from_le_bytes(eight.try_into().unwrap())).collect()
}

fn pairs(bytes: &[u8]) -> Vec<Pair> {
    values(bytes).chunks_exact(2).map(|two| (two[0], two[1])).collect()
}

fn sub(a: u64, b: u64) -> u64 {
    if a >= b { a - b } else { a + (P - b) }
}

fn difference<T: Ord + Copy>(mut left: Vec<T>, right: &[T]) -> u64 {
    left.sort_unstable();
    let mut ordered = right.to_vec();
    if !ordered.is_sorted() {
        ordered.sort_unstable();
    }
    let place = left.iter().zip(&ordered).position(|(x, y)| x != y);
    let end = (left.len() != ordered.len()).then_some(left.len().min(ordered.len()));
    place.or(end).map_or(NOWHERE, |row| row as u64)
}

fn memory_fault(left: Vec<Pair>, right: &[Pair]) -> u64 {
    for (row, two) in right.windows(2).enumerate() {
        let step = sub(two[1].0, two[0].0);
        if step > 1 || (step == 0 && two[0].1 != two[1].1) {
            return row as u64;
        }
    }
    difference(left, right)
}

fn range_fault(left: Vec<u64>, right: &[u64]) -> u64 {
    if right[0] != 0 {
        return 0;
    }
    for (row, two) in right.windows(2).enumerate() {
        if sub(two[1], two[0]) > 1 {
            return row as u64;
        }
    }
    difference(left, right)
}

fn sort_columns(mut sorted: Vec<Pair>) -> u64 {
    sorted.sort_unstable();
    let (mut count, mut next) = (0, sorted[0].0);
    for x in &sorted {
        count += x.0.saturating_sub(next);
        next = x.0 + 1;
    }
    if count > FILL_LIMIT {
        return 0;
    }
    let mut fill = Vec::with_capacity(count as usize);
    let mut next = sorted[0].0;
    for x in &sorted {
        fill.extend((next..x.0).map(|addr| (addr, 0)));
        next = x.0 + 1;
    }
    sorted.extend_from_slice(&fill);
    sorted.sort();
    sorted.len() as u64
}

fn main() -> io::Result<()> {
    let words: Vec<String> = env::args().skip(1).collect();
    let [call, left, right] = words.as_slice() else {
        return Ok(());
    };
    let (left, right) = (fs::read(left)?, fs::read(right)?);
    let number = if call == "values" || call == "range_fault" {
        let (left, right) = (values(&left), values(&right));
        if call == "values" { left.len() as u64 } else { range_fault(left, &right) }
    } else {
        let (left, right) = (pairs(&left), pairs(&right));
        match call.as_str() {
            "order_difference" => difference(left, &right),
            "memory_fault" => memory_fault(left, &right),
            "sort_columns" => sort_columns(left),
            _ => left.len() as u64,
        }
    };
    println!("{number}");
    Ok(())
}
