//! Writes a ledger of the tree of n states with so many records: `H K S` where a table halts within 200 steps, else
//! `U`. Build with `rustc --edition 2021 -O grow_ledger.rs`; arguments: n, the number, and the order in which open tables are
//! taken: `first`, always the first in the order of their texts, as who settles a tree by itself takes them; or
//! `nearest`, the nearest to the root, which leaves as many tables open as can be.
#[allow(dead_code)]
mod machine;

use machine::{children, halts_on, printed, Row};
use std::collections::{BTreeMap, VecDeque};
use std::io::{self, BufWriter, Write};

/// The tables that are open, in either order.
enum Open {
    First(BTreeMap<String, Vec<Row>>),
    Nearest(VecDeque<Vec<Row>>),
}

impl Open {
    fn add(&mut self, table: Vec<Row>) {
        match self {
            Open::First(tables) => drop(tables.insert(printed(&table), table)),
            Open::Nearest(tables) => tables.push_back(table),
        }
    }

    fn take(&mut self) -> Option<Vec<Row>> {
        match self {
            Open::First(tables) => tables.pop_first().map(|(_, table)| table),
            Open::Nearest(tables) => tables.pop_front(),
        }
    }
}

fn main() -> io::Result<()> {
    let words: Vec<String> = std::env::args().skip(1).collect();
    let states: usize = words[0].parse().expect("a number of states");
    let records: usize = words[1].parse().expect("a number of records");
    let mut open = match words.get(2).map(String::as_str) {
        Some("nearest") => Open::Nearest(VecDeque::new()),
        _ => Open::First(BTreeMap::new()),
    };
    let root = vec![[None, None]; states];
    let mut out = BufWriter::new(io::stdout().lock());
    writeln!(out, "bb-ledger 2 {}", printed(&root))?;
    open.add(root);
    for _ in 0..records {
        let Some(table) = open.take() else {
            break;
        };
        match halts_on(&table, 200) {
            Some(halt) => {
                writeln!(out, "{} H {} {}", printed(&table), halt.count, halt.ones)?;
                for child in children(&table, halt.state, halt.symbol) {
                    open.add(child);
                }
            }
            None => writeln!(out, "{} U", printed(&table))?,
        }
    }
    Ok(())
}
