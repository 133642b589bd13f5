//! Tables and their runs in plain Rust, on a growing byte tape: what the yardsticks share.

#[derive(Clone, Copy, PartialEq, Eq, PartialOrd, Ord, Hash)]
pub struct Entry {
    pub write: u8,
    pub right: bool,
    pub next: usize,
}

pub type Row = [Option<Entry>; 2];

/// The table of a text in the bbchallenge standard format, or its leftmost fault: a number, and a place
/// where it has one.
pub fn parse(text: &[u8]) -> Result<Vec<Row>, (u16, Option<usize>)> {
    let states = (text.len() + 1) / 7;
    if 7 * states != text.len() + 1 || !(1..=7).contains(&states) {
        return Err((101, None));
    }
    for place in 0..text.len() {
        if let Some(number) = fault_at(states, text, place) {
            return Err((number, Some(place)));
        }
    }
    Ok(text
        .chunks(7)
        .map(|row| [entry(&row[..3], states), entry(&row[3..6], states)])
        .collect())
}

fn is_letter(states: usize, byte: u8) -> bool {
    (b'A'..b'A' + states as u8).contains(&byte)
}

fn fault_at(states: usize, text: &[u8], place: usize) -> Option<u16> {
    let byte = text[place];
    let column = place % 7;
    let (fits, number) = match (column, column % 3) {
        (6, _) => (byte == b'_', 102),
        (_, 0) => (matches!(byte, b'0' | b'1' | b'-'), 103),
        (_, 1) if text[place - 1] == b'-' => (byte == b'-', 104),
        (_, 1) => (matches!(byte, b'L' | b'R'), 104),
        _ if text[place - 2] == b'-' => (byte == b'-', 105),
        _ => (is_letter(states, byte) || matches!(byte, b'Z' | b'H'), 105),
    };
    if fits {
        None
    } else {
        Some(number)
    }
}

/// The entry of three bytes without a fault; none where they halt.
fn entry(text: &[u8], states: usize) -> Option<Entry> {
    is_letter(states, text[2]).then(|| Entry {
        write: text[0] - b'0',
        right: text[1] == b'R',
        next: (text[2] - b'A') as usize,
    })
}

pub fn printed(rows: &[Row]) -> String {
    let texts: Vec<String> = rows
        .iter()
        .map(|row| {
            row.iter()
                .map(|entry| match entry {
                    None => "---".to_string(),
                    Some(e) => format!(
                        "{}{}{}",
                        e.write,
                        if e.right { 'R' } else { 'L' },
                        (b'A' + e.next as u8) as char
                    ),
                })
                .collect()
        })
        .collect();
    texts.join("_")
}

/// How a table halts: in so many steps, with so many ones, on a state and a symbol.
pub struct Halt {
    pub count: u64,
    pub ones: u64,
    pub state: usize,
    pub symbol: usize,
}

/// How the table halts, where it does in at most `limit` steps.
pub fn halts_on(rows: &[Row], limit: u64) -> Option<Halt> {
    let mut tape = vec![0u8; 1];
    let mut head = 0usize;
    let mut state = 0usize;
    for count in 1..=limit {
        let Some(e) = rows[state][tape[head] as usize] else {
            let symbol = tape[head] as usize;
            // the halting step writes a one
            tape[head] = 1;
            let ones = tape.iter().map(|cell| u64::from(*cell)).sum();
            return Some(Halt { count, ones, state, symbol });
        };
        tape[head] = e.write;
        if e.right {
            head += 1;
            if head == tape.len() {
                tape.push(0);
            }
        } else if head == 0 {
            let mut grown = vec![0u8; tape.len()];
            head = grown.len() - 1;
            grown.extend_from_slice(&tape);
            tape = grown;
        } else {
            head -= 1;
        }
        state = e.next;
    }
    None
}

/// A number in decimal, without sign or leading zeros.
pub fn number(text: &str) -> Option<u64> {
    let k = text.parse::<u64>().ok()?;
    (k.to_string() == text).then_some(k)
}

/// The children of a table that halts on a pair, in the order of their texts (tree normal form).
pub fn children(rows: &[Row], state: usize, symbol: usize) -> Vec<Vec<Row>> {
    let entries = || {
        rows.iter()
            .enumerate()
            .flat_map(|(q, row)| row.iter().flatten().map(move |e| (q, e)))
    };
    let undefined = 2 * rows.len() - entries().count();
    if undefined < 2 {
        return Vec::new();
    }
    let used = entries().map(|(q, e)| q.max(e.next) + 1).max().unwrap_or(1);
    let mut found = Vec::new();
    for write in [0, 1] {
        for right in [false, true] {
            if entries().count() == 0 && !right {
                continue;
            }
            for next in 0..rows.len().min(used + 1) {
                let mut child = rows.to_vec();
                child[state][symbol] = Some(Entry { write, right, next });
                found.push(child);
            }
        }
    }
    found
}
