//! The tables of a run of numbers, and the files of the run.

use crate::field::{add, inverse, mul};
use crate::machine::{DST_FP, OP0_FP, OP1_AP, OP1_FP, OP1_IMM, PC_JNZ, RES_ADD, RES_MUL, Word};

/// A run with addresses: its states as pc, ap and fp, and its cells by ascending addresses.
pub struct Run {
    pub states: Vec<[u64; 3]>,
    pub cells: Vec<(u64, u64)>,
    pub shown: Vec<u64>,
}

pub struct Tables {
    rows: Vec<[u64; 33]>,
    fillers: Vec<(u64, u64)>,
    pairs: Vec<(u64, u64)>,
    range_fillers: Vec<u64>,
    range: Vec<u64>,
    pub limits: (u64, u64),
}

impl Run {
    fn cell(&self, address: u64) -> Option<u64> {
        let place = self.cells.binary_search_by_key(&address, |cell| cell.0).ok()?;
        Some(self.cells[place].1)
    }

    fn read(&self, address: u64) -> u64 {
        self.cell(address).expect("a cell is missing")
    }

    fn row(&self, [pc, ap, fp]: [u64; 3]) -> [u64; 33] {
        let number = self.read(pc);
        let word = Word(number);
        let moved = |from: u64, limb: u32| from + word.biased(limb) - 0x8000;
        let dst_address = moved(if word.flag(DST_FP) { fp } else { ap }, 0);
        let op0_address = moved(if word.flag(OP0_FP) { fp } else { ap }, 1);
        let op0 = self.read(op0_address);
        let origin = if word.flag(OP1_IMM) {
            pc
        } else if word.flag(OP1_FP) {
            fp
        } else if word.flag(OP1_AP) {
            ap
        } else {
            op0
        };
        let op1_address = moved(origin, 2);
        let (dst, op1) = (self.read(dst_address), self.read(op1_address));
        let product = mul(op0, op1);
        let res = if word.flag(PC_JNZ) {
            if dst == 0 { 0 } else { inverse(dst) }
        } else if word.flag(RES_ADD) {
            add(op0, op1)
        } else if word.flag(RES_MUL) {
            product
        } else {
            op1
        };
        let t0 = if word.flag(PC_JNZ) { dst } else { 0 };
        let mut row = [0; 33];
        row[..4].copy_from_slice(&[pc, ap, fp, number]);
        for (j, tilde) in row[4..20].iter_mut().enumerate() {
            *tilde = number >> 48 >> j;
        }
        let rest = [word.biased(0), word.biased(1), word.biased(2), dst_address, op0_address, op1_address];
        row[20..26].copy_from_slice(&rest);
        row[26..].copy_from_slice(&[dst, op0, op1, product, res, t0, mul(t0, res)]);
        row
    }

    pub fn tables(&self, words: &[u64]) -> Tables {
        let rows: Vec<_> = self.states[..self.states.len() - 1].iter().map(|state| self.row(*state)).collect();
        let mut pairs = Vec::with_capacity(4 * rows.len() + words.len() + self.shown.len());
        for row in &rows {
            pairs.extend([(row[0], row[3]), (row[23], row[26]), (row[24], row[27]), (row[25], row[28])]);
        }
        pairs.extend(words.iter().enumerate().map(|(place, word)| (1 + place as u64, *word)));
        pairs.extend(self.shown.iter().map(|address| (*address, self.read(*address))));
        pairs.sort_unstable();
        let mut fillers = Vec::new();
        for pair in pairs.windows(2) {
            fillers.extend((pair[0].0 + 1..pair[1].0).map(|address| (address, self.cell(address).unwrap_or(0))));
        }
        pairs.extend_from_slice(&fillers);
        pairs.sort_unstable();
        let mut range: Vec<u64> = rows.iter().flat_map(|row| row[20..23].iter().copied()).collect();
        range.sort_unstable();
        let limits = (range[0], range[range.len() - 1]);
        let mut range_fillers = Vec::new();
        for pair in range.windows(2) {
            range_fillers.extend(pair[0] + 1..pair[1]);
        }
        range.extend_from_slice(&range_fillers);
        range.sort_unstable();
        Tables { rows, fillers, pairs, range_fillers, range, limits }
    }
}

fn push(bytes: &mut Vec<u8>, numbers: &[u64]) {
    for number in numbers {
        bytes.extend_from_slice(&number.to_le_bytes());
    }
}

fn push_cells(bytes: &mut Vec<u8>, cells: &[(u64, u64)]) {
    for (address, value) in cells {
        push(bytes, &[*address, *value]);
    }
}

impl Run {
    pub fn trace(&self) -> Vec<u8> {
        let mut bytes = Vec::with_capacity(24 * self.states.len());
        for [pc, ap, fp] in &self.states {
            push(&mut bytes, &[*ap, *fp, *pc]);
        }
        bytes
    }

    pub fn memory(&self) -> Vec<u8> {
        let mut bytes = Vec::with_capacity(16 * self.cells.len());
        push_cells(&mut bytes, &self.cells);
        bytes
    }

    pub fn public(&self, limits: (u64, u64)) -> String {
        let cells: Vec<_> = self.shown.iter().map(|at| format!("[\"{at:#x}\",\"{:#x}\"]", self.read(*at))).collect();
        let (first, last) = (self.states[0][1], self.states[self.states.len() - 1][1]);
        format!(
            "{{\"ap_first\":\"{first:#x}\",\"ap_last\":\"{last:#x}\",\"cells\":[{}],\"range_begin\":\"0x0\",\"range_count\":0,\"rc_max\":{},\"rc_min\":{},\"steps\":{}}}",
            cells.join(","),
            limits.1,
            limits.0,
            self.states.len() - 1
        )
    }

    pub fn table_file(&self, tables: &Tables) -> Vec<u8> {
        let lengths = [
            tables.rows.len() as u64,
            0,
            tables.fillers.len() as u64,
            tables.pairs.len() as u64,
            tables.range_fillers.len() as u64,
        ];
        let mut bytes = Vec::with_capacity(72 + 264 * tables.rows.len() + 16 * tables.pairs.len() + 8 * tables.range.len());
        bytes.extend_from_slice(b"CAIROGT1");
        push(&mut bytes, &lengths);
        for row in &tables.rows {
            push(&mut bytes, row);
        }
        push(&mut bytes, &self.states[self.states.len() - 1]);
        push_cells(&mut bytes, &tables.fillers);
        push_cells(&mut bytes, &tables.pairs);
        push(&mut bytes, &tables.range_fillers);
        push(&mut bytes, &tables.range);
        bytes
    }
}
