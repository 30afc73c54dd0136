//! The work of `walk` in plain Rust: both files are read whole, and each step is compared with the transition.
use std::env;
use std::fs::File;
use std::io::{self, Read};
use std::process::ExitCode;

const P: u64 = 0xffff_ffff_0000_0001;
const TRACE_LIMIT: usize = 25165848;
const MEMORY_LIMIT: usize = 33554432;

fn add(a: u64, b: u64) -> u64 {
    let room = P - b;
    if a >= room { a - room } else { a + b }
}

fn mul(a: u64, b: u64) -> u64 {
    let product = u128::from(a) * u128::from(b);
    let low = product as u64;
    let middle = (product >> 64) as u64 & 0xffff_ffff;
    let high = (product >> 96) as u64;
    let difference = if low >= high { low - high } else { low.wrapping_add(P - high) };
    let (sum, carried) = difference.overflowing_add(middle * 0xffff_ffff);
    let sum = if carried { sum + 0xffff_ffff } else { sum };
    if sum >= P { sum - P } else { sum }
}

#[derive(Clone, Copy, PartialEq, Eq)]
struct State {
    pc: u64,
    ap: u64,
    fp: u64,
}

#[derive(Clone, Copy)]
struct Flags {
    dst_fp: bool,
    op0_fp: bool,
    op1_imm: bool,
    op1_fp: bool,
    op1_ap: bool,
    res_add: bool,
    res_mul: bool,
    pc_abs: bool,
    pc_rel: bool,
    pc_jnz: bool,
    ap_add: bool,
    ap_add1: bool,
    op_call: bool,
    op_ret: bool,
    op_assert: bool,
}

struct Word {
    off_dst: i16,
    off_op0: i16,
    off_op1: i16,
    flags: Flags,
}

enum Fault {
    NoCell(u64),
    HighBit,
    Undefined(&'static str),
    CallPc,
    CallFp,
    NotEqual,
}

fn at_least_two(a: bool, b: bool, c: bool) -> bool {
    a && b || a && c || b && c
}

impl Flags {
    fn of(number: u64) -> Flags {
        let bit = |place: u32| number >> place & 1 == 1;
        Flags {
            dst_fp: bit(48),
            op0_fp: bit(49),
            op1_imm: bit(50),
            op1_fp: bit(51),
            op1_ap: bit(52),
            res_add: bit(53),
            res_mul: bit(54),
            pc_abs: bit(55),
            pc_rel: bit(56),
            pc_jnz: bit(57),
            ap_add: bit(58),
            ap_add1: bit(59),
            op_call: bit(60),
            op_ret: bit(61),
            op_assert: bit(62),
        }
    }

    fn first_broken(self) -> Option<&'static str> {
        let broken = [
            ("Op1", at_least_two(self.op1_imm, self.op1_fp, self.op1_ap)),
            ("Res", at_least_two(self.res_add, self.res_mul, self.pc_jnz)),
            ("Pc", at_least_two(self.pc_abs, self.pc_rel, self.pc_jnz)),
            ("Opcode", at_least_two(self.op_call, self.op_ret, self.op_assert)),
            ("ApBoth", self.ap_add && self.ap_add1),
            ("JnzOpcode", self.pc_jnz && (self.op_call || self.op_ret || self.op_assert)),
            ("JnzAp", self.pc_jnz && self.ap_add),
            ("CallAp", self.op_call && (self.ap_add || self.ap_add1)),
        ];
        broken.iter().find(|shape| shape.1).map(|shape| shape.0)
    }
}

impl Word {
    fn of(number: u64) -> Result<Word, Fault> {
        if number >> 63 != 0 {
            return Err(Fault::HighBit);
        }
        let flags = Flags::of(number);
        if let Some(shape) = flags.first_broken() {
            return Err(Fault::Undefined(shape));
        }
        let offset = |place: u32| ((number >> place & 0xffff) as i32 - 0x8000) as i16;
        Ok(Word { off_dst: offset(0), off_op0: offset(16), off_op1: offset(32), flags })
    }
}

struct Memory {
    cells: Vec<(u64, u64)>,
}

impl Memory {
    /// Looks where the address would be if none were missing, and then by binary search.
    fn read(&self, address: u64) -> Result<u64, Fault> {
        let missing = Fault::NoCell(address);
        let Some(&(first, _)) = self.cells.first() else {
            return Err(missing);
        };
        if let Some(&(found, value)) = self.cells.get(address.wrapping_sub(first) as usize) {
            if found == address {
                return Ok(value);
            }
        }
        match self.cells.binary_search_by_key(&address, |cell| cell.0) {
            Ok(place) => Ok(self.cells[place].1),
            Err(_) => Err(missing),
        }
    }
}

fn moved(base: u64, offset: i16) -> u64 {
    add(base, if offset < 0 { P - u64::from(offset.unsigned_abs()) } else { offset as u64 })
}

fn step(memory: &Memory, s: State) -> Result<State, Fault> {
    let Word { off_dst, off_op0, off_op1, flags } = Word::of(memory.read(s.pc)?)?;
    let dst = memory.read(moved(if flags.dst_fp { s.fp } else { s.ap }, off_dst))?;
    let op0 = memory.read(moved(if flags.op0_fp { s.fp } else { s.ap }, off_op0))?;
    let base = if flags.op1_imm {
        s.pc
    } else if flags.op1_fp {
        s.fp
    } else if flags.op1_ap {
        s.ap
    } else {
        op0
    };
    let op1 = memory.read(moved(base, off_op1))?;
    let res = if flags.res_add {
        add(op0, op1)
    } else if flags.res_mul {
        mul(op0, op1)
    } else {
        op1
    };
    let following = add(s.pc, if flags.op1_imm { 2 } else { 1 });
    if flags.op_call && op0 != following {
        return Err(Fault::CallPc);
    }
    if flags.op_call && dst != s.fp {
        return Err(Fault::CallFp);
    }
    if flags.op_assert && dst != res {
        return Err(Fault::NotEqual);
    }
    let pc = if flags.pc_abs {
        res
    } else if flags.pc_rel {
        add(s.pc, res)
    } else if flags.pc_jnz && dst != 0 {
        add(s.pc, op1)
    } else {
        following
    };
    let ap = if flags.op_call {
        add(s.ap, 2)
    } else if flags.ap_add {
        add(s.ap, res)
    } else if flags.ap_add1 {
        add(s.ap, 1)
    } else {
        s.ap
    };
    let fp = if flags.op_call {
        add(s.ap, 2)
    } else if flags.op_ret {
        dst
    } else {
        s.fp
    };
    Ok(State { pc, ap, fp })
}

fn read_file(name: &str, limit: usize) -> io::Result<Option<Vec<u8>>> {
    let mut bytes = Vec::new();
    File::open(name)?.take(limit as u64 + 1).read_to_end(&mut bytes)?;
    Ok(Some(bytes).filter(|bytes| bytes.len() <= limit))
}

fn number_at(bytes: &[u8], place: usize) -> Option<u64> {
    let number = u64::from_le_bytes(bytes[place..place + 8].try_into().ok()?);
    Some(number).filter(|number| *number < P)
}

fn states_of(bytes: &[u8]) -> Option<Vec<State>> {
    if bytes.len() % 24 != 0 || bytes.len() < 48 {
        return None;
    }
    let state = |bytes: &[u8]| {
        let (ap, fp, pc) = (number_at(bytes, 0)?, number_at(bytes, 8)?, number_at(bytes, 16)?);
        Some(State { pc, ap, fp })
    };
    bytes.chunks_exact(24).map(state).collect()
}

fn memory_of(bytes: &[u8]) -> Option<Memory> {
    if bytes.len() % 16 != 0 {
        return None;
    }
    let mut cells: Vec<(u64, u64)> = Vec::with_capacity(bytes.len() / 16);
    for bytes in bytes.chunks_exact(16) {
        let cell = (number_at(bytes, 0)?, number_at(bytes, 8)?);
        if cells.last().is_some_and(|last| last.0 >= cell.0) {
            return None;
        }
        cells.push(cell);
    }
    Some(Memory { cells })
}

fn walk(states: &[State], memory: &Memory) -> Result<usize, (usize, String)> {
    for (i, pair) in states.windows(2).enumerate() {
        let why = match step(memory, pair[0]) {
            Ok(next) if next == pair[1] => continue,
            Ok(_) => "Mismatch".to_string(),
            Err(Fault::NoCell(address)) => format!("NoCell {address}"),
            Err(Fault::HighBit) => "BadWord HighBit".to_string(),
            Err(Fault::Undefined(shape)) => format!("BadWord Undefined {shape}"),
            Err(Fault::CallPc) => "CallPc".to_string(),
            Err(Fault::CallFp) => "CallFp".to_string(),
            Err(Fault::NotEqual) => "NotEqual".to_string(),
        };
        return Err((i, why));
    }
    Ok(states.len() - 1)
}

fn main() -> io::Result<ExitCode> {
    let names: Vec<String> = env::args().skip(2).collect();
    let [trace, memory] = names.as_slice() else {
        return Ok(ExitCode::from(2));
    };
    let Some(bytes) = read_file(trace, TRACE_LIMIT)? else {
        return Ok(ExitCode::from(8));
    };
    let Some(states) = states_of(&bytes) else {
        return Ok(ExitCode::from(3));
    };
    drop(bytes);
    let Some(bytes) = read_file(memory, MEMORY_LIMIT)? else {
        return Ok(ExitCode::from(8));
    };
    let Some(memory) = memory_of(&bytes) else {
        return Ok(ExitCode::from(3));
    };
    drop(bytes);
    match walk(&states, &memory) {
        Ok(steps) => println!("walk: {steps} steps"),
        Err((i, why)) => {
            println!("walk: refused at step {i}: {why}");
            return Ok(ExitCode::from(1));
        }
    }
    Ok(ExitCode::SUCCESS)
}
