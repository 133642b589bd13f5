//! What bb coord does with frames `REC` of the kinds H and U, in plain Rust: parse, judge, index, append, answer. A
//! yardstick for speed. Build with `rustc --edition 2021 -O`; arguments: the number of states and the ledger's path.
#[allow(dead_code)]
mod machine;

use machine::{children, halts_on, number, parse, printed, Row};
use std::collections::{BTreeSet, HashMap};
use std::fs::OpenOptions;
use std::io::{self, BufRead, BufWriter, Write};

fn main() -> io::Result<()> {
    let words: Vec<String> = std::env::args().skip(1).collect();
    let root: Vec<Row> = vec![[None, None]; words[0].parse().expect("a number of states")];
    let mut ledger = OpenOptions::new().append(true).create(true).open(&words[1])?;
    ledger.write_all(format!("bb-ledger 2 {}\n", printed(&root)).as_bytes())?;
    let mut records: HashMap<Vec<Row>, Option<u64>> = HashMap::new();
    let mut open = BTreeSet::from([root]);
    let mut out = BufWriter::new(io::stdout().lock());
    for line in io::stdin().lock().split(b'\n') {
        let line = line?;
        let Some(text) = line.strip_prefix(b"REC ") else {
            continue;
        };
        let parts: Vec<&[u8]> = text.split(|byte| *byte == b' ').collect();
        let table = parse(parts[0]).expect("a table");
        if records.contains_key(&table) {
            writeln!(out, "ACK {}", printed(&table))?;
            continue;
        }
        if !open.contains(&table) {
            writeln!(out, "LATER {}", printed(&table))?;
            continue;
        }
        let says = if parts[1] == b"U" {
            None
        } else {
            let count = number(std::str::from_utf8(parts[2]).expect("a number")).expect("a number");
            match halts_on(&table, count) {
                Some(halt) if halt.count == count => open.extend(children(&table, halt.state, halt.symbol)),
                _ => continue,
            }
            Some(count)
        };
        // Written at once, before the answer: as bb does.
        ledger.write_all(&[text, b"\n"].concat())?;
        writeln!(out, "ACK {}", printed(&table))?;
        open.remove(&table);
        records.insert(table, says);
    }
    out.flush()
}
