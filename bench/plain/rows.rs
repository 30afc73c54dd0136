//! Rows of a run of 2^20 steps, built and checked as `crates/cpu_rows` does: flags as booleans, each sum computed once,
//! and of a row that is built only what its making leaves open is tested.

use crate::field::{P, add, inverse, mul, sub};

const STEPS: u32 = 1 << 20;
const CHECKS: u32 = 10;
const SUMS: u64 = 64;
const SUM: u64 = 0x48307ffe7fff8000;
const JUMP: u64 = 0x020680017fff7fff;
const FIRST_AP: u64 = 68;
const BIAS: u64 = 1 << 15;

#[derive(Clone, Copy)]
struct State {
    pc: u64,
    ap: u64,
    fp: u64,
}

#[derive(Clone, Copy)]
struct Row {
    pc: u64,
    ap: u64,
    fp: u64,
    inst: u64,
    tilde: [u64; 16],
    off_dst: u64,
    off_op0: u64,
    off_op1: u64,
    dst_addr: u64,
    op0_addr: u64,
    op1_addr: u64,
    dst: u64,
    op0: u64,
    op1: u64,
    mul: u64,
    res: u64,
    t0: u64,
    t1: u64,
}

#[derive(Clone, Copy)]
struct Flags([bool; 15]);

impl Flags {
    fn of_word(word: u64) -> Flags {
        Flags(std::array::from_fn(|place| word >> (48 + place) & 1 == 1))
    }

    fn of_row(r: &Row) -> Result<Flags, u8> {
        let mut set = [false; 15];
        for place in 0..15 {
            let rest = r.tilde[place + 1];
            let flag = sub(r.tilde[place], add(rest, rest));
            if flag > 1 {
                return Err(place as u8 + 1);
            }
            set[place] = flag == 1;
        }
        Ok(Flags(set))
    }

    fn is_broken(self) -> Option<u8> {
        let f = self.0;
        let opcode = f[12] | f[13] | f[14];
        let two = |a: bool, b: bool, c: bool| a & b | a & c | b & c;
        [
            (32, two(f[2], f[3], f[4])),
            (33, two(f[5], f[6], f[9])),
            (34, two(f[7], f[8], f[9])),
            (35, two(f[12], f[13], f[14])),
            (36, f[10] & f[11]),
            (37, f[9] & opcode),
            (38, f[9] & f[10]),
            (39, f[12] & (f[10] | f[11])),
        ]
        .into_iter()
        .find(|(_, broken)| *broken)
        .map(|(number, _)| number)
    }
}

fn when(flag: bool, number: u64) -> u64 {
    if flag { number } else { 0 }
}

fn unmet(number: u8, left: u64, right: u64) -> Option<u8> {
    if left == right { None } else { Some(number) }
}

fn one_less(a: bool, b: bool, c: bool) -> u64 {
    sub(sub(sub(1, a as u64), b as u64), c as u64)
}

fn row_fault(r: &Row, next: State) -> Option<u8> {
    let flags = match Flags::of_row(r) {
        Ok(flags) => flags,
        Err(number) => return Some(number),
    };
    let f = flags.0;
    let base = |by_fp: bool| if by_fp { r.fp } else { r.ap };
    let word = add(
        add(add(r.off_dst, mul(1 << 16, r.off_op0)), mul(1 << 32, r.off_op1)),
        mul(1 << 48, r.tilde[0]),
    );
    let op1_base = add(
        add(add(when(f[2], r.pc), when(f[4], r.ap)), when(f[3], r.fp)),
        mul(one_less(f[2], f[4], f[3]), r.op0),
    );
    let computed = add(
        add(when(f[5], add(r.op0, r.op1)), when(f[6], r.mul)),
        mul(one_less(f[5], f[6], f[9]), r.op1),
    );
    unmet(16, r.tilde[15], 0)
        .or(unmet(17, r.inst, word))
        .or(unmet(18, r.dst_addr, sub(add(base(f[0]), r.off_dst), BIAS)))
        .or(unmet(19, r.op0_addr, sub(add(base(f[1]), r.off_op0), BIAS)))
        .or(unmet(20, r.op1_addr, sub(add(op1_base, r.off_op1), BIAS)))
        .or(unmet(21, r.mul, mul(r.op0, r.op1)))
        .or(unmet(22, when(!f[9], r.res), computed))
        .or(unmet(23, r.t0, when(f[9], r.dst)))
        .or(unmet(24, r.t1, mul(r.t0, r.res)))
        .or(step_fault(r, flags, next))
        .or(flags.is_broken())
}

fn step_fault(r: &Row, flags: Flags, next: State) -> Option<u8> {
    let f = flags.0;
    let size = if f[2] { 2 } else { 1 };
    let further = sub(next.pc, r.pc);
    let left = add(mul(r.t0, sub(further, r.op1)), when(!f[9], next.pc));
    let right = add(
        add(mul(one_less(f[7], f[8], f[9]), add(r.pc, size)), when(f[7], r.res)),
        when(f[8], add(r.pc, r.res)),
    );
    let ap = add(add(add(r.ap, when(f[10], r.res)), f[11] as u64), when(f[12], 2));
    let fp = add(
        add(when(f[13], r.dst), when(f[12], add(r.ap, 2))),
        mul(sub(sub(1, f[13] as u64), f[12] as u64), r.fp),
    );
    unmet(25, mul(sub(r.t1, f[9] as u64), sub(further, size)), 0)
        .or(unmet(26, sub(left, right), 0))
        .or(unmet(27, next.ap, ap))
        .or(unmet(28, next.fp, fp))
        .or(unmet(29, when(f[12], sub(r.dst, r.fp)), 0))
        .or(unmet(30, when(f[12], sub(sub(r.op0, r.pc), size)), 0))
        .or(unmet(31, when(f[14], sub(r.dst, r.res)), 0))
}

fn first_fault(rows: &[Row], last: State) -> Option<(usize, u8)> {
    rows.iter().enumerate().find_map(|(place, row)| {
        let next = rows.get(place + 1).map_or(last, state_of);
        row_fault(row, next).map(|number| (place, number))
    })
}

fn state_of(r: &Row) -> State {
    State { pc: r.pc, ap: r.ap, fp: r.fp }
}

/// An address from sixteen bits of the word that hold an offset with 2^15 added.
fn moved(base: u64, word: u64, place: u32) -> u64 {
    sub(add(base, word >> place & 0xffff), BIAS)
}

fn build_row(cells: &[u64], from: State, to: State) -> Option<Row> {
    let cell = |a: u64| cells.get(a as usize).copied();
    let inst = cell(from.pc)?;
    let flags = Flags::of_word(inst);
    if inst >> 63 != 0 || flags.is_broken().is_some() {
        return None;
    }
    let f = flags.0;
    let base = |by_fp: bool| if by_fp { from.fp } else { from.ap };
    let dst_addr = moved(base(f[0]), inst, 0);
    let dst = cell(dst_addr)?;
    let op0_addr = moved(base(f[1]), inst, 16);
    let op0 = cell(op0_addr)?;
    let op1_base = if f[2] {
        from.pc
    } else if f[3] {
        from.fp
    } else if f[4] {
        from.ap
    } else {
        op0
    };
    let op1_addr = moved(op1_base, inst, 32);
    let op1 = cell(op1_addr)?;
    let res = if f[9] {
        inverse(dst).unwrap_or(0)
    } else if f[5] {
        add(op0, op1)
    } else if f[6] {
        mul(op0, op1)
    } else {
        op1
    };
    let t0 = when(f[9], dst);
    let row = Row {
        pc: from.pc,
        ap: from.ap,
        fp: from.fp,
        inst,
        tilde: std::array::from_fn(|place| inst >> (48 + place)),
        off_dst: inst & 0xffff,
        off_op0: inst >> 16 & 0xffff,
        off_op1: inst >> 32 & 0xffff,
        dst_addr,
        op0_addr,
        op1_addr,
        dst,
        op0,
        op1,
        mul: mul(op0, op1),
        res,
        t0,
        t1: mul(t0, res),
    };
    if step_fault(&row, flags, to).is_some() { None } else { Some(row) }
}

fn cells_of_run() -> Vec<u64> {
    let mut cells = vec![0];
    cells.extend((0..SUMS).map(|_| SUM));
    cells.extend([JUMP, P - SUMS, 1]);
    for _ in 0..STEPS {
        let end = cells.len();
        cells.push(add(cells[end - 2], cells[end - 1]));
    }
    cells
}

fn states_of_run(cells: &[u64]) -> Vec<State> {
    let mut state = State { pc: 1, ap: FIRST_AP, fp: FIRST_AP };
    let mut states = vec![state];
    for _ in 0..STEPS {
        let is_sum = cells[state.pc as usize] == SUM;
        state = State {
            pc: if is_sum { state.pc + 1 } else { 1 },
            ap: state.ap + u64::from(is_sum),
            fp: state.fp,
        };
        states.push(state);
    }
    states
}

pub fn work(task: &str) -> Option<u64> {
    let cells = cells_of_run();
    let states = states_of_run(&cells);
    let rows = || states.windows(2).filter_map(|step| build_row(&cells, step[0], step[1]));
    match task {
        "states" => states.last().map(|state| state.ap),
        "build" => Some(rows().fold(0u64, |sum, row| sum.wrapping_add(row.t1).wrapping_add(row.res))),
        "table" | "check" => {
            let rows: Vec<Row> = rows().collect();
            let times = if task == "check" { CHECKS } else { 0 };
            let passed = || first_fault(&rows, states[states.len() - 1]).map_or(rows.len(), |f| f.0);
            Some((0..times).map(|_| passed() as u64).sum())
        }
        _ => None,
    }
}
