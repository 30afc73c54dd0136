//! The machine over values: numbers and pointers into segments, and a memory whose cells are written once.

use crate::field::{add, inverse, mul, sub};

#[derive(Clone, Copy, PartialEq, Eq)]
pub struct Place {
    pub segment: u32,
    pub offset: u32,
}

#[derive(Clone, Copy, PartialEq, Eq)]
pub enum Value {
    Number(u64),
    Pointer(Place),
}

use Value::{Number, Pointer};

#[derive(Clone, Copy)]
pub struct State {
    pub pc: Place,
    pub ap: Place,
    pub fp: Place,
}

pub struct Memory {
    pub segments: Vec<Vec<Option<Value>>>,
}

impl Memory {
    pub fn get(&self, place: Place) -> Option<Value> {
        *self.segments.get(place.segment as usize)?.get(place.offset as usize)?
    }

    pub fn put(&mut self, place: Place, value: Value) -> Option<()> {
        let segment = self.segments.get_mut(place.segment as usize)?;
        let offset = place.offset as usize;
        if offset >= segment.len() {
            segment.resize(offset + 1, None);
        }
        match segment[offset] {
            Some(held) => (held == value).then_some(()),
            None => {
                segment[offset] = Some(value);
                Some(())
            }
        }
    }
}

fn pointer(segment: u32, offset: u64) -> Option<Value> {
    Some(Pointer(Place { segment, offset: u32::try_from(offset).ok()? }))
}

fn sum(a: Value, b: Value) -> Option<Value> {
    match (a, b) {
        (Number(x), Number(y)) => Some(Number(add(x, y))),
        (Number(x), Pointer(p)) | (Pointer(p), Number(x)) => pointer(p.segment, add(u64::from(p.offset), x)),
        (Pointer(_), Pointer(_)) => None,
    }
}

fn difference(a: Value, b: Value) -> Option<Value> {
    match (a, b) {
        (Number(x), Number(y)) => Some(Number(sub(x, y))),
        (Pointer(p), Number(y)) => pointer(p.segment, sub(u64::from(p.offset), y)),
        (Pointer(p), Pointer(q)) if p.segment == q.segment => Some(Number(sub(u64::from(p.offset), u64::from(q.offset)))),
        _ => None,
    }
}

fn product(a: Value, b: Value) -> Option<Value> {
    match (a, b) {
        (Number(x), Number(y)) => Some(Number(mul(x, y))),
        _ => None,
    }
}

fn quotient(a: Value, b: Value) -> Option<Value> {
    match (a, b) {
        (Number(x), Number(y)) if y != 0 => Some(Number(mul(x, inverse(y)))),
        _ => None,
    }
}

fn shift(place: Place, by: i64) -> Option<Place> {
    let offset = u32::try_from(i64::from(place.offset) + by).ok()?;
    Some(Place { offset, ..place })
}

fn place(value: Value) -> Option<Place> {
    match value {
        Pointer(place) => Some(place),
        Number(_) => None,
    }
}

/// An instruction word. Its flags are taken as they are: the words that are run here are defined ones.
#[derive(Clone, Copy)]
pub struct Word(pub u64);

impl Word {
    pub fn flag(self, bit: u32) -> bool {
        self.0 >> (48 + bit) & 1 == 1
    }

    pub fn biased(self, limb: u32) -> u64 {
        self.0 >> (16 * limb) & 0xffff
    }

    fn offset(self, limb: u32) -> i64 {
        self.biased(limb) as i64 - 0x8000
    }
}

pub const DST_FP: u32 = 0;
pub const OP0_FP: u32 = 1;
pub const OP1_IMM: u32 = 2;
pub const OP1_FP: u32 = 3;
pub const OP1_AP: u32 = 4;
pub const RES_ADD: u32 = 5;
pub const RES_MUL: u32 = 6;
const PC_ABS: u32 = 7;
const PC_REL: u32 = 8;
pub const PC_JNZ: u32 = 9;
const AP_ADD: u32 = 10;
const AP_ADD1: u32 = 11;
const OP_CALL: u32 = 12;
const OP_RET: u32 = 13;
const OP_ASSERT: u32 = 14;

fn found_op0(word: Word, dst: Option<Value>, op1: Option<Value>) -> Option<Value> {
    if !word.flag(OP_ASSERT) {
        None
    } else if word.flag(RES_ADD) {
        difference(dst?, op1?)
    } else if word.flag(RES_MUL) {
        quotient(dst?, op1?)
    } else {
        None
    }
}

fn found_op1(word: Word, dst: Option<Value>, op0: Option<Value>) -> Option<Value> {
    if !word.flag(OP_ASSERT) {
        None
    } else if word.flag(RES_ADD) {
        difference(dst?, op0?)
    } else if word.flag(RES_MUL) {
        quotient(dst?, op0?)
    } else {
        dst
    }
}

/// One step: what isn't known is found out and written, and the next state follows.
pub fn step(memory: &mut Memory, s: State) -> Option<State> {
    let Number(number) = memory.get(s.pc)? else { return None };
    let word = Word(number);
    let behind = shift(s.pc, if word.flag(OP1_IMM) { 2 } else { 1 })?;
    let dst_place = shift(if word.flag(DST_FP) { s.fp } else { s.ap }, word.offset(0))?;
    let op0_place = shift(if word.flag(OP0_FP) { s.fp } else { s.ap }, word.offset(1))?;
    let held_dst = memory.get(dst_place);
    let held_op0 = memory.get(op0_place);
    let called = word.flag(OP_CALL).then_some(Pointer(behind));
    let op0 = held_op0.or(called);
    let origin = if word.flag(OP1_IMM) {
        s.pc
    } else if word.flag(OP1_FP) {
        s.fp
    } else if word.flag(OP1_AP) {
        s.ap
    } else {
        place(op0?)?
    };
    let op1_place = shift(origin, word.offset(2))?;
    let held_op1 = memory.get(op1_place);
    let op0 = op0.or_else(|| found_op0(word, held_dst, held_op1));
    let op1 = held_op1.or_else(|| found_op1(word, held_dst, op0))?;
    let op0 = op0?;
    let res = if word.flag(RES_ADD) {
        sum(op0, op1)?
    } else if word.flag(RES_MUL) {
        product(op0, op1)?
    } else {
        op1
    };
    let dst = match held_dst {
        Some(dst) => dst,
        None if word.flag(OP_ASSERT) => res,
        None if word.flag(OP_CALL) => Pointer(s.fp),
        None => return None,
    };
    for (place, held, value) in [(op0_place, held_op0, op0), (op1_place, held_op1, op1), (dst_place, held_dst, dst)] {
        if held.is_none() {
            memory.put(place, value)?;
        }
    }
    if word.flag(OP_CALL) && (op0 != Pointer(behind) || dst != Pointer(s.fp)) || word.flag(OP_ASSERT) && dst != res {
        return None;
    }
    next(word, s, behind, dst, op1, res)
}

fn next(word: Word, s: State, behind: Place, dst: Value, op1: Value, res: Value) -> Option<State> {
    let moved = |from: Place, by: Value| place(sum(Pointer(from), by)?);
    let pc = if word.flag(PC_ABS) {
        place(res)?
    } else if word.flag(PC_REL) {
        moved(s.pc, res)?
    } else if word.flag(PC_JNZ) && dst != Number(0) {
        moved(s.pc, op1)?
    } else {
        behind
    };
    let ap = if word.flag(OP_CALL) {
        moved(s.ap, Number(2))?
    } else if word.flag(AP_ADD) {
        moved(s.ap, res)?
    } else if word.flag(AP_ADD1) {
        moved(s.ap, Number(1))?
    } else {
        s.ap
    };
    let fp = if word.flag(OP_CALL) {
        moved(s.ap, Number(2))?
    } else if word.flag(OP_RET) {
        place(dst)?
    } else {
        s.fp
    };
    Some(State { pc, ap, fp })
}
