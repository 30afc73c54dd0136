//! `run` in plain Rust, for programs without builtins: `plain PROGRAM HINTS TRACE MEMORY PUBLIC TABLES`. It takes files as
//! the benchmark makes them, and makes no effort to say what is wrong with others.

mod field;
mod machine;
mod tables;

use machine::{Memory, Place, State, Value, step};
use std::{env, fs};
use tables::Run;

const STEP_LIMIT: usize = 1 << 20;

/// The text behind a key, up to this sign.
fn member<'a>(text: &'a str, key: &str, end: char) -> &'a str {
    let from = text.find(&format!("\"{key}\":")).expect(key) + key.len() + 3;
    text[from..].split(end).next().expect(key)
}

fn words(program: &str) -> Vec<u64> {
    let list = member(program, "data", ']');
    list.split('"').filter_map(|text| u64::from_str_radix(text.strip_prefix("0x")?, 16).ok()).collect()
}

fn number(text: &str, key: &str) -> u32 {
    member(text, key, ',').trim_matches(['}', ' ', '\n']).parse().expect(key)
}

/// The cells of hints that are pointers: a segment, an offset, and the same of what is held.
fn cells(hints: &str) -> Vec<(Place, Value)> {
    let numbers: Vec<u32> = member(hints, "cells", '}')
        .split(|sign: char| !sign.is_ascii_digit())
        .filter_map(|text| text.parse().ok())
        .collect();
    let place = |pair: &[u32]| Place { segment: pair[0], offset: pair[1] };
    numbers.chunks_exact(4).map(|cell| (place(&cell[..2]), Value::Pointer(place(&cell[2..])))).collect()
}

fn execute(memory: &mut Memory, start: u32, end: u32) -> Vec<State> {
    let first = Place { segment: 1, offset: 2 };
    let mut state = State { pc: Place { segment: 0, offset: start }, ap: first, fp: first };
    let end = Place { segment: 0, offset: end };
    let mut states = vec![state];
    for _ in 0..STEP_LIMIT {
        if state.pc == end {
            return states;
        }
        state = step(memory, state).expect("the run is refused");
        states.push(state);
    }
    panic!("step limit");
}

fn relocate(memory: &Memory, states: &[State]) -> Run {
    let mut bases = Vec::with_capacity(memory.segments.len());
    let mut base = 1;
    for segment in &memory.segments {
        bases.push(base);
        base += segment.len() as u64;
    }
    let address = |place: Place| bases[place.segment as usize] + u64::from(place.offset);
    let relocated = |value: Value| match value {
        Value::Number(number) => number,
        Value::Pointer(place) => address(place),
    };
    let mut cells = Vec::with_capacity(base as usize - 1);
    for (segment, base) in memory.segments.iter().zip(&bases) {
        for (offset, value) in segment.iter().enumerate() {
            cells.extend(value.map(|value| (base + offset as u64, relocated(value))));
        }
    }
    let states = states.iter().map(|state| [address(state.pc), address(state.ap), address(state.fp)]).collect();
    let shown = (0..2).map(|offset| address(Place { segment: 1, offset })).collect();
    Run { states, cells, shown }
}

fn main() {
    let names: Vec<String> = env::args().skip(1).collect();
    let program = fs::read_to_string(&names[0]).expect("the program");
    let hints = fs::read_to_string(&names[1]).expect("the hints");
    let words = words(&program);
    let segment = words.iter().map(|word| Some(Value::Number(*word))).collect();
    let mut memory = Memory { segments: vec![segment, Vec::new()] };
    memory.segments.resize(2 + number(&hints, "extra") as usize, Vec::new());
    memory.put(Place { segment: 1, offset: 0 }, Value::Pointer(Place { segment: 1, offset: 2 }));
    memory.put(Place { segment: 1, offset: 1 }, Value::Number(0));
    for (place, value) in cells(&hints) {
        memory.put(place, value).expect("a hint is refused");
    }
    let states = execute(&mut memory, number(&program, "start"), number(&program, "end"));
    let run = relocate(&memory, &states);
    let tables = run.tables(&words);
    fs::write(&names[2], run.trace()).expect("the trace");
    fs::write(&names[3], run.memory()).expect("the memory");
    fs::write(&names[4], run.public(tables.limits)).expect("the public input");
    fs::write(&names[5], run.table_file(&tables)).expect("the tables");
    println!("run: {} steps, {} cells", states.len() - 1, run.cells.len());
}
