//! What bb walk, settle and decide do with the tables that halt, loop or fall to backward reasoning early, in plain Rust that is
//! written for speed: one tape and one history, from whose end loops are looked for; a child's run goes on from where its
//! parent halts, and is undone on the way back. Automata and rules aren't searched: what is left for them is a holdout.
//! Build with `rustc --edition 2021 -O plain_walk.rs`. Arguments: `report ROOT` prints the report of the tree below a table or of
//! so many states, `ledger ROOT` its ledger; `decide` reads tables from standard input, and prints a record of each.
mod bytes;

use bytes::{Table, RIGHT, STOP};
use std::env;
use std::io::{self, BufRead, BufWriter, Write};

/// The times at which loops are looked for.
const CHECKS: [usize; 4] = [50, 100, 200, 800];
/// That after which backward reasoning is tried.
const BEFORE_BACKWARD: usize = 200;
const LAST: usize = 800;
/// Cell 0 on the tape, which no run leaves by then.
const ORIGIN: usize = 1_024;
/// How many of those periods by which the history repeats are tried at a time.
const PERIODS: usize = 4;
const DEPTHS: [usize; 4] = [3, 6, 12, 20];
/// With more paths of a length than this, no greater depth is tried.
const PATHS: u32 = 60;
/// With more than this the depth is given up.
const MOST_PATHS: u32 = 200;

/// What a record says.
enum Found {
    Halts { steps: usize, ones: u64 },
    Loops { from: usize, to: usize, side: Option<u8> },
    Backward(usize),
    Nothing,
}

trait Told {
    fn take(&mut self, table: &Table, found: &Found);
}

#[derive(Clone, Copy)]
struct Moment {
    time: usize,
    head: usize,
    state: usize,
}

const BLANK: Moment = Moment { time: 0, head: ORIGIN, state: 0 };

struct Walk<T: Told> {
    table: Table,
    has_children: bool,
    tape: [u8; 2 * ORIGIN],
    /// The pair on which each step was made: the symbol that was read, and twice the state.
    pairs: [u8; LAST],
    heads: [usize; LAST + 1],
    later: [u8; 2 * ORIGIN],
    told: T,
}

impl<T: Told> Walk<T> {
    fn new(told: T, has_children: bool) -> Walk<T> {
        Walk {
            table: Table::empty(1),
            has_children,
            tape: [0; 2 * ORIGIN],
            pairs: [0; LAST],
            heads: [0; LAST + 1],
            later: [0; 2 * ORIGIN],
            told,
        }
    }

    /// Settles the table, and all below it, from a moment on; leaves the tape as it was then.
    fn settle(&mut self, begin: Moment) {
        let (found, end) = self.found(begin);
        self.told.take(&self.table, &found);
        if let (Found::Halts { .. }, true) = (&found, self.has_children) {
            self.settle_children(end);
        }
        self.undo(end.time, begin.time);
    }

    /// What is found, and the moment at which the tape stands then.
    fn found(&mut self, begin: Moment) -> (Found, Moment) {
        let mut now = begin;
        for stop in CHECKS.into_iter().filter(|stop| *stop > begin.time) {
            if !self.reaches(&mut now, stop) {
                return (self.halts(now), now);
            }
            if let Some((from, side)) = self.looping(now) {
                return (Found::Loops { from, to: now.time, side }, Moment { time: from, ..now });
            }
            if stop == BEFORE_BACKWARD {
                if let Some(depth) = backward(&self.table) {
                    return (Found::Backward(depth), now);
                }
            }
        }
        (Found::Nothing, now)
    }

    /// Runs to a time; false where it halts before.
    fn reaches(&mut self, now: &mut Moment, stop: usize) -> bool {
        let Moment { mut time, mut head, mut state } = *now;
        let mut goes = true;
        while time < stop {
            let pair = 2 * state + usize::from(self.tape[head]);
            let entry = self.table.entries[pair & 15];
            if entry == STOP {
                goes = false;
                break;
            }
            self.pairs[time] = pair as u8;
            self.heads[time] = head;
            self.tape[head] = entry & 1;
            head = if entry & RIGHT != 0 { head + 1 } else { head - 1 };
            state = usize::from(entry >> 2);
            time += 1;
        }
        self.heads[time] = head;
        *now = Moment { time, head, state };
        goes
    }

    fn undo(&mut self, from: usize, to: usize) {
        for time in (to..from).rev() {
            self.tape[self.heads[time]] = self.pairs[time] & 1;
        }
    }

    fn halts(&self, now: Moment) -> Found {
        let visited = &self.tape[ORIGIN - now.time..=ORIGIN + now.time];
        let ones = visited.iter().map(|cell| u64::from(*cell)).sum::<u64>();
        // the halting step writes a one
        Found::Halts { steps: now.time + 1, ones: ones + 1 - u64::from(self.tape[now.head]) }
    }

    /// The children in the order of their texts (tree normal form).
    fn settle_children(&mut self, now: Moment) {
        let entries = &self.table.entries[..2 * self.table.states];
        let filled = entries.iter().filter(|entry| **entry != STOP).count();
        if filled + 1 >= entries.len() {
            return;
        }
        let used = entries.iter().filter(|entry| **entry != STOP).map(|entry| usize::from(entry >> 2) + 1).max().unwrap_or(1);
        let place = 2 * now.state + usize::from(self.tape[now.head]);
        for way in [0, RIGHT, 1, 1 | RIGHT].into_iter().filter(|way| filled > 0 || way & RIGHT != 0) {
            for next in 0..self.table.states.min(used + 1) {
                self.table.entries[place] = way | (next as u8) << 2;
                self.settle(now);
            }
        }
        self.table.entries[place] = STOP;
    }

    /// A loop that ends now: when it begins, and its side if it is translated; the tape then stands at the begin.
    fn looping(&mut self, now: Moment) -> Option<(usize, Option<u8>)> {
        let end = now.time;
        let mut tried = 0;
        for period in 1..=end / 2 {
            if usize::from(self.pairs[end - period] >> 1) != now.state {
                continue;
            }
            // the last pairs have to be those one period before
            let many = (end / 3).max(2 * period) - period;
            if self.pairs[end - many..end] != self.pairs[end - many - period..end - period] {
                continue;
            }
            if let Some(side) = self.repeats(end, period) {
                return Some((end - period, side));
            }
            tried += 1;
            if tried == PERIODS {
                break;
            }
        }
        None
    }

    /// Whether the cells repeat after a period, as docs/FORMATS.md asks of a record C or T: the tape is undone to the begin, and
    /// stays there if they do.
    fn repeats(&mut self, end: usize, period: usize) -> Option<Option<u8>> {
        let begin = end - period;
        let (first, last) = (ORIGIN - end, ORIGIN + end);
        self.later[first..=last].copy_from_slice(&self.tape[first..=last]);
        self.undo(end, begin);
        let heads = &self.heads[begin..end];
        let (left, right) = (self.heads[begin], self.heads[end]);
        let (early, later) = (&self.tape, &self.later);
        let (stands, side) = if left == right {
            (early[first..=last] == later[first..=last], None)
        } else if left < right {
            let (from, shift) = (*heads.iter().min().expect("a period has steps"), right - left);
            // beyond the last cell all is blank
            let blank = early[last - shift + 1..=last].iter().all(|cell| *cell == 0);
            (blank && early[from..=last - shift] == later[from + shift..=last], Some(b'R'))
        } else {
            let (from, shift) = (*heads.iter().max().expect("a period has steps"), left - right);
            let blank = early[first..first + shift].iter().all(|cell| *cell == 0);
            (blank && early[first + shift..=from] == later[first..=from - shift], Some(b'L'))
        };
        if !stands {
            self.tape[first..=last].copy_from_slice(&self.later[first..=last]);
        }
        stands.then_some(side)
    }
}

/// The entries that lead to a state: the pair on which each is, and its byte.
#[derive(Clone, Copy, Default)]
struct Leads {
    count: usize,
    from: [(u8, u8); 16],
}

/// All paths to a halting pair of some lengths at most.
struct Paths {
    leads: [Leads; 8],
    /// What is known of the cells around the last head, 2 where nothing is.
    cells: [u8; 64],
    count: [u32; 24],
    depth: usize,
    is_cut: bool,
}

/// The least depth of those tried that no path to a halting pair reaches.
fn backward(table: &Table) -> Option<usize> {
    let mut leads = [Leads::default(); 8];
    let entries = &table.entries[..2 * table.states];
    for (pair, entry) in entries.iter().enumerate().filter(|(_, entry)| **entry != STOP) {
        let lead = &mut leads[usize::from(entry >> 2) & 7];
        lead.from[lead.count] = (pair as u8, *entry);
        lead.count += 1;
    }
    let mut paths = Paths { leads, cells: [2; 64], count: [0; 24], depth: 0, is_cut: false };
    for depth in DEPTHS {
        paths.count = [0; 24];
        paths.depth = depth;
        for pair in (0..entries.len()).filter(|pair| entries[*pair] == STOP) {
            paths.cells[32] = (pair & 1) as u8;
            paths.follow(pair / 2, 32, 0);
            paths.cells[32] = 2;
        }
        if paths.is_cut {
            return None;
        }
        if let Some(length) = (0..=depth).find(|length| paths.count[*length] == 0) {
            return Some(length);
        }
        if paths.count.iter().any(|count| *count > PATHS) {
            return None;
        }
    }
    None
}

impl Paths {
    /// Follows all paths backward from a state and a head, after so many steps.
    fn follow(&mut self, state: usize, head: usize, length: usize) {
        self.count[length] += 1;
        self.is_cut |= self.count[length] > MOST_PATHS;
        if length == self.depth || self.is_cut {
            return;
        }
        for k in 0..self.leads[state].count {
            let (pair, entry) = self.leads[state].from[k];
            let from = if entry & RIGHT != 0 { head - 1 } else { head + 1 };
            let known = self.cells[from];
            if known == 2 || known == entry & 1 {
                self.cells[from] = pair & 1;
                self.follow(usize::from(pair >> 1), from, length + 1);
                self.cells[from] = known;
            }
        }
    }
}

/// Prints a record of each table.
struct Records<W: Write> {
    out: W,
    line: Vec<u8>,
}

impl<W: Write> Told for Records<W> {
    fn take(&mut self, table: &Table, found: &Found) {
        self.line.clear();
        table.print(&mut self.line);
        let line = &mut self.line;
        let written = match found {
            Found::Halts { steps, ones } => writeln!(line, " H {steps} {ones}"),
            Found::Loops { from, to, side: None } => writeln!(line, " C {from} {to}"),
            Found::Loops { from, to, side: Some(side) } => writeln!(line, " T {from} {to} {}", char::from(*side)),
            Found::Backward(depth) => writeln!(line, " B {depth}"),
            Found::Nothing => writeln!(line, " U"),
        };
        written.and_then(|()| self.out.write_all(&self.line)).expect("standard output takes it");
    }
}

/// The greatest number, and the tables that have it.
#[derive(Default)]
struct Best {
    number: u64,
    tables: Vec<Table>,
}

impl Best {
    fn take(&mut self, number: u64, table: &Table) {
        if number > self.number {
            *self = Best { number, tables: Vec::new() };
        }
        if number == self.number {
            self.tables.push(*table);
        }
    }

    fn print(&self, out: &mut impl Write, name: &str, of_table: &str) -> io::Result<()> {
        match self.number {
            0 => writeln!(out, "{name} none")?,
            number => writeln!(out, "{name} {number}")?,
        }
        in_order(out, of_table, &self.tables)
    }
}

/// Tables in the order of their texts.
fn in_order(out: &mut impl Write, name: &str, tables: &[Table]) -> io::Result<()> {
    let mut texts: Vec<String> = tables.iter().map(Table::text).collect();
    texts.sort_unstable();
    texts.iter().try_for_each(|text| writeln!(out, "{name} {text}"))
}

/// What the report says.
#[derive(Default)]
struct Sums {
    halting: u64,
    never: u64,
    best: Best,
    ones: Best,
    holdouts: Vec<Table>,
}

impl Told for Sums {
    fn take(&mut self, table: &Table, found: &Found) {
        match found {
            Found::Halts { steps, ones } => {
                self.halting += 1;
                self.best.take(*steps as u64, table);
                self.ones.take(*ones, table);
            }
            Found::Nothing => self.holdouts.push(*table),
            _ => self.never += 1,
        }
    }
}

impl Sums {
    fn print(&self, root: &Table, out: &mut impl Write) -> io::Result<()> {
        let holdouts = self.holdouts.len() as u64;
        let status = if holdouts == 0 { "complete" } else { "holdouts" };
        writeln!(out, "root {}\nstatus {status}\nnodes {}", root.text(), self.halting + self.never + holdouts)?;
        writeln!(out, "halting {}\nnever {}\nholdouts {holdouts}\nopen 0", self.halting, self.never)?;
        self.best.print(out, "best", "champion")?;
        self.ones.print(out, "ones", "ones_champion")?;
        in_order(out, "holdout", &self.holdouts)
    }
}

fn main() -> io::Result<()> {
    let words: Vec<String> = env::args().skip(1).collect();
    let mut out = BufWriter::new(io::stdout().lock());
    let root = words.get(1).map(|word| match word.parse() {
        Ok(states) => Table::empty(states),
        Err(_) => Table::read(word.as_bytes()).expect("a table"),
    });
    match (words[0].as_str(), root) {
        ("report", Some(root)) => {
            let mut walk = Walk { table: root, ..Walk::new(Sums::default(), true) };
            walk.settle(BLANK);
            walk.told.print(&root, &mut out)?;
        }
        ("ledger", Some(root)) => {
            writeln!(out, "bb-ledger 2 {}", root.text())?;
            let mut walk = Walk { table: root, ..Walk::new(Records { out: &mut out, line: Vec::new() }, true) };
            walk.settle(BLANK);
        }
        _ => {
            let mut walk = Walk::new(Records { out: &mut out, line: Vec::new() }, false);
            for line in io::stdin().lock().split(b'\n') {
                walk.table = Table::read(&line?).expect("a table");
                walk.settle(BLANK);
            }
        }
    }
    out.flush()
}
