//! A sample of the tree of six states, or of so many, by random descent: `TABLE WEIGHT` a line, and how many were drawn on standard error.
//! From 3 to 10 filled entries each child is kept by chance, one of four, and then counts four times as much; so the sum of
//! the weights is an unbiased estimate of the number of tables (Knuth 1975). Descents from the root are made until as many
//! tables are drawn as asked for; the weights are divided by how many descents that were, so that they add up to the tree.
//! A table that halts later than the limit in steps has no children here. Arguments: a seed, how many tables, and of how
//! many states, six where it isn't said.
#[allow(dead_code)]
mod machine;

use machine::{children, halts_on, printed, Row};
use std::io::{self, BufWriter, Write};

const STATES: u64 = 6;
const STEPS: u64 = 2_000;

/// Numbers that look like chance (Vigna's splitmix).
struct Chance(u64);

impl Chance {
    fn one_of_four(&mut self) -> bool {
        self.0 = self.0.wrapping_add(0x9e37_79b9_7f4a_7c15);
        let mut mixed = self.0;
        mixed = (mixed ^ (mixed >> 30)).wrapping_mul(0xbf58_476d_1ce4_e5b9);
        mixed = (mixed ^ (mixed >> 27)).wrapping_mul(0x94d0_49bb_1331_11eb);
        (mixed ^ (mixed >> 31)) >> 62 == 0
    }
}

/// Adds a table and what is kept of its tree, each with its weight.
fn descend(rows: &[Row], weight: u64, chance: &mut Chance, drawn: &mut Vec<(String, u64)>) {
    drawn.push((printed(rows), weight));
    let Some(halt) = halts_on(rows, STEPS) else {
        return;
    };
    for child in children(rows, halt.state, halt.symbol) {
        let filled = child.iter().flatten().flatten().count();
        if !(3..=10).contains(&filled) {
            descend(&child, weight, chance, drawn);
        } else if chance.one_of_four() {
            descend(&child, 4 * weight, chance, drawn);
        }
    }
}

fn main() -> io::Result<()> {
    let arguments: Vec<u64> = std::env::args().skip(1).map(|text| text.parse().expect("a number")).collect();
    let (seed, count, states) = (arguments[0], arguments[1] as usize, *arguments.get(2).unwrap_or(&STATES) as usize);
    let mut chance = Chance(seed);
    let mut drawn = Vec::new();
    let mut descents = 0;
    while drawn.len() < count {
        descend(&vec![[None; 2]; states], 1, &mut chance, &mut drawn);
        descents += 1;
    }
    let mut out = BufWriter::new(io::stdout().lock());
    for (table, weight) in &drawn {
        writeln!(out, "{table} {}", *weight as f64 / f64::from(descents))?;
    }
    eprintln!("{} tables in {descents} descents", drawn.len());
    out.flush()
}
