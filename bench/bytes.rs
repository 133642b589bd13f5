//! Tables in sixteen bytes: what the plain programs share that are written for speed.

/// An entry's byte holds what is written, this where the head goes to the right, and four times the next state.
pub const RIGHT: u8 = 2;

/// The byte of an entry where the table halts.
pub const STOP: u8 = 0xff;

#[derive(Clone, Copy)]
pub struct Table {
    pub states: usize,
    pub entries: [u8; 16],
}

impl Table {
    pub fn empty(states: usize) -> Table {
        Table { states, entries: [STOP; 16] }
    }

    /// The table of a text without a fault.
    pub fn read(text: &[u8]) -> Option<Table> {
        let states = (text.len() + 1) / 7;
        if 7 * states != text.len() + 1 || !(1..=7).contains(&states) {
            return None;
        }
        let mut table = Table::empty(states);
        for (state, row) in text.chunks(7).enumerate() {
            if row.len() == 7 && row[6] != b'_' {
                return None;
            }
            table.entries[2 * state] = entry(&row[..3], states)?;
            table.entries[2 * state + 1] = entry(&row[3..6], states)?;
        }
        Some(table)
    }

    /// Appends the table's text.
    pub fn print(&self, out: &mut Vec<u8>) {
        let mut text = [b'_'; 49];
        for (place, code) in self.entries[..2 * self.states].iter().enumerate() {
            let at = 7 * (place / 2) + 3 * (place % 2);
            text[at..at + 3].copy_from_slice(&printed(*code));
        }
        out.extend_from_slice(&text[..7 * self.states - 1]);
    }

    pub fn text(&self) -> String {
        let mut text = Vec::new();
        self.print(&mut text);
        String::from_utf8(text).expect("letters and digits")
    }
}

fn entry(text: &[u8], states: usize) -> Option<u8> {
    if text == b"---" {
        return Some(STOP);
    }
    let (write, next) = (text[0].wrapping_sub(b'0'), text[2].wrapping_sub(b'A'));
    let right = match text[1] {
        b'L' => 0,
        b'R' => RIGHT,
        _ => return None,
    };
    match text[2] {
        _ if write > 1 => None,
        b'H' | b'Z' => Some(STOP),
        _ => (usize::from(next) < states).then_some(write | right | next << 2),
    }
}

fn printed(code: u8) -> [u8; 3] {
    if code == STOP {
        return *b"---";
    }
    [b'0' + (code & 1), if code & RIGHT != 0 { b'R' } else { b'L' }, b'A' + (code >> 2)]
}
