//! Columns of 1,400,000 accesses, made and checked as `crates/memory_columns` does, with `sort_unstable` and `sort`.

use crate::field::{mul, sub};

const ACCESSES: u64 = 1_400_000;
const ADDRESSES: u64 = 700_000;
const FILL_LIMIT: u64 = 1 << 21;

type Pair = (u64, u64);

fn accesses(step: u64) -> Vec<Pair> {
    (0..ACCESSES)
        .map(|i| {
            let place = if step == 1 { i / 2 } else { i.wrapping_mul(step) % ADDRESSES };
            let addr = place + place / 10;
            (addr, mul(addr, addr))
        })
        .collect()
}

fn columns(accesses: Vec<Pair>) -> Option<(Vec<Pair>, Vec<Pair>)> {
    let mut sorted = accesses;
    sorted.sort_unstable();
    let least = sorted.first()?.0;
    let (mut count, mut next) = (0, least);
    for x in &sorted {
        count += x.0.saturating_sub(next);
        next = x.0 + 1;
    }
    if count > FILL_LIMIT {
        return None;
    }
    let mut fill = Vec::with_capacity(count as usize);
    let mut next = least;
    for x in &sorted {
        fill.extend((next..x.0).map(|addr| (addr, 0)));
        next = x.0 + 1;
    }
    sorted.extend_from_slice(&fill);
    sorted.sort();
    Some((fill, sorted))
}

fn fault(mut left: Vec<Pair>, sorted: &[Pair]) -> Option<u64> {
    for (row, two) in sorted.windows(2).enumerate() {
        let step = sub(two[1].0, two[0].0);
        if step > 1 || (step == 0 && two[0].1 != two[1].1) {
            return Some(row as u64);
        }
    }
    left.sort_unstable();
    let mut right = sorted.to_vec();
    if !right.is_sorted() {
        right.sort_unstable();
    }
    left.iter().zip(&right).position(|(x, y)| x != y).map(|row| row as u64)
}

fn sum_of(pairs: &[Pair]) -> u64 {
    pairs.iter().fold(0u64, |sum, x| sum.wrapping_mul(3).wrapping_add(x.0).wrapping_add(x.1))
}

pub fn work(task: &str) -> Option<u64> {
    let ordered = task == "ordered" || task == "sort_ordered";
    let accesses = accesses(if ordered { 1 } else { 1_000_003 });
    match task {
        "cells" | "ordered" => Some(sum_of(&accesses)),
        "sort" | "sort_ordered" => Some(sum_of(&columns(accesses)?.1)),
        "check" => {
            let mut all = accesses.clone();
            let (fill, sorted) = columns(accesses)?;
            all.extend_from_slice(&fill);
            Some(fault(all, &sorted).unwrap_or(sum_of(&sorted)))
        }
        _ => None,
    }
}
