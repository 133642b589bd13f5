//! What bb check does, in plain Rust that is written for speed: halting and loops within some steps are judged on a tape of that
//! width, in tables of sixteen bytes; no other record is accepted. Build with `rustc --edition 2021 -O plain_short.rs`. Reads records
//! from standard input; one that isn't accepted is `TABLE refused`.
#[allow(dead_code)]
mod bytes;

use bytes::{Table, RIGHT, STOP};
use std::io::{self, BufRead, BufWriter, Write};

/// Runs of more steps aren't judged.
const MOST: u64 = 100_000;
const ORIGIN: usize = MOST as usize + 1;

/// A run from the blank tape.
struct Run {
    tape: Vec<u8>,
    head: usize,
    state: usize,
    /// The outermost cells that the head has visited.
    first: usize,
    last: usize,
    early: Vec<u8>,
}

impl Run {
    fn begin(&mut self) {
        self.tape[self.first..=self.last].fill(0);
        (self.head, self.state, self.first, self.last) = (ORIGIN, 0, ORIGIN, ORIGIN);
    }

    /// Makes so many steps; the least and greatest head from which one was made, or none where the table halts before.
    fn goes(&mut self, table: &Table, steps: u64) -> Option<(usize, usize)> {
        let (mut head, mut state) = (self.head, self.state);
        let (mut least, mut most) = (head, head);
        let mut goes = true;
        for _ in 0..steps {
            let entry = table.entries[(2 * state + usize::from(self.tape[head])) & 15];
            if entry == STOP {
                goes = false;
                break;
            }
            (least, most) = (least.min(head), most.max(head));
            self.tape[head] = entry & 1;
            head = if entry & RIGHT != 0 { head + 1 } else { head - 1 };
            state = usize::from(entry >> 2);
        }
        (self.head, self.state) = (head, state);
        (self.first, self.last) = (self.first.min(least).min(head), self.last.max(most).max(head));
        goes.then_some((least, most))
    }

    /// With how many ones the table halts, if it does so in so many steps.
    fn halts(&mut self, table: &Table, steps: u64) -> Option<u64> {
        self.begin();
        self.goes(table, steps.checked_sub(1)?)?;
        let symbol = self.tape[self.head];
        let ones = self.tape[self.first..=self.last].iter().map(|cell| u64::from(*cell)).sum::<u64>();
        // the halting step writes a one
        (table.entries[2 * self.state + usize::from(symbol)] == STOP).then_some(ones + 1 - u64::from(symbol))
    }

    /// Whether the state and the cells are the same at both times but for a shift, from the farthest head between them on; of a
    /// cycle all cells, without one.
    fn repeats(&mut self, table: &Table, from: u64, to: u64, side: Option<u8>) -> Option<bool> {
        self.begin();
        self.goes(table, from)?;
        let (head, state, first, last) = (self.head, self.state, self.first, self.last);
        self.early.clear();
        self.early.extend_from_slice(&self.tape[first..=last]);
        let (least, most) = self.goes(table, to - from)?;
        let (early, tape) = (&self.early, &self.tape);
        let before = |x: usize| if (first..=last).contains(&x) { early[x - first] } else { 0 };
        let same = match side {
            None => self.head == head && (self.first..=self.last).all(|x| before(x) == tape[x]),
            Some(b'R') => self.head >= head && (least..=self.last).all(|x| before(x) == tape[x + self.head - head]),
            Some(_) => self.head <= head && (self.first..=most).all(|x| before(x) == tape[x + self.head - head]),
        };
        Some(same && self.state == state)
    }
}

fn number(text: &[u8]) -> Option<u64> {
    if text.is_empty() || text.len() > 6 || (text.len() > 1 && text[0] == b'0') {
        return None;
    }
    text.iter().try_fold(0, |all, digit| digit.is_ascii_digit().then(|| 10 * all + u64::from(digit - b'0')))
}

/// Appends the verdict of a record that is judged here; false where it isn't, or isn't accepted.
fn judged(run: &mut Run, table: &Table, fields: &[&[u8]], out: &mut Vec<u8>) -> bool {
    let numbers = (fields.get(1).and_then(|text| number(text)), fields.get(2).and_then(|text| number(text)));
    let (Some(a), Some(b)) = numbers else {
        return false;
    };
    if a.max(b) > MOST {
        return false;
    }
    match fields {
        [b"H", _, _] if run.halts(table, a) == Some(b) => write!(out, " halts {a} ones {b}").is_ok(),
        [b"C", _, _] if a < b && run.repeats(table, a, b, None) == Some(true) => out.write_all(b" never").is_ok(),
        [b"T", _, _, [side @ (b'L' | b'R')]] if a < b && run.repeats(table, a, b, Some(*side)) == Some(true) => {
            out.write_all(b" never").is_ok()
        }
        _ => false,
    }
}

/// Appends what is answered to a record.
fn answer(line: &[u8], run: &mut Run, out: &mut Vec<u8>) {
    let mut fields: [&[u8]; 5] = [b""; 5];
    let mut count = 0;
    for field in line.split(|byte| *byte == b' ').take(5) {
        fields[count] = field;
        count += 1;
    }
    if let Some(table) = Table::read(fields[0]) {
        table.print(out);
        if judged(run, &table, &fields[1..count], out) {
            return;
        }
        out.clear();
    }
    out.extend_from_slice(fields[0]);
    out.extend_from_slice(b" refused");
}

fn main() -> io::Result<()> {
    let mut input = io::stdin().lock();
    let mut out = BufWriter::new(io::stdout().lock());
    let blank = vec![0; 2 * ORIGIN + 1];
    let mut run = Run { tape: blank, head: ORIGIN, state: 0, first: ORIGIN, last: ORIGIN, early: Vec::new() };
    let (mut line, mut said) = (Vec::new(), Vec::new());
    while input.read_until(b'\n', &mut line)? > 0 {
        said.clear();
        answer(line.strip_suffix(b"\n").unwrap_or(&line), &mut run, &mut said);
        said.push(b'\n');
        out.write_all(&said)?;
        line.clear();
    }
    out.flush()
}
