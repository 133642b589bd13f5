//! The judge of bb: a record, or a ledger's whole text, judged by proved code.
//!
//! ```
//! use busybeaver::{check, Verdict};
//!
//! let shown = check(b"1RB1LB_1LA--- H 6 4").unwrap();
//! assert_eq!(shown.verdict, Some(Verdict::Halts { steps: 6, ones: 4 }));
//! assert_eq!(check(b"1RB1LB_1LA--- H 7").unwrap_err().meaning(), "it doesn't hold for the table");
//! ```
//!
//! What is proved of the calls behind this, and what a caller owes them, is said in `packaging/c/bb.h`. A `&[u8]` and a
//! struct of one's own meet all of that except for the processor (x86-64-v2), the stack (64 kilobytes), and that no call comes
//! from a signal handler or from the forked child of a process with threads. Threads may call side by side.

use std::ffi::{c_char, CStr};
use std::mem::{ManuallyDrop, MaybeUninit};
use std::sync::Once;
use std::{fmt, io};

/// What is declared in `bb.h`. Nothing compares the two, so each edit there is made here too. The first call of a process
/// compares `VERSION`.
mod declared {
    use super::c_char;

    pub const VERSION: u32 = 2;

    #[repr(C)]
    #[derive(Clone, Copy, Default)]
    pub struct Answer {
        pub steps: u64,
        pub ones: u64,
        pub place: u64,
        pub outcome: u32,
        pub code: u32,
        pub table_code: u32,
        pub has_place: u32,
        pub has_ones: u32,
        pub kind: u32,
    }

    pub const READER_BYTES: usize = 1024;

    #[repr(C)]
    pub struct Reader {
        pub room: [u64; READER_BYTES / 8],
    }

    #[repr(C)]
    #[derive(Clone, Copy, Default)]
    pub struct Tree {
        pub nodes: u64,
        pub halting: u64,
        pub never: u64,
        pub holdouts: u64,
        pub open: u64,
        pub best: u64,
        pub ones: u64,
        pub left_line: u64,
        pub outcome: u32,
        pub code: u32,
        pub states: u32,
        pub is_whole: u32,
        pub has_best: u32,
        pub has_ones: u32,
        pub left_why: u32,
        pub left_code: u32,
    }

    extern "C" {
        pub fn bb_version() -> u32;
        pub fn bb_strerror(code: u32) -> *const c_char;
        pub fn bb_check(text: *const u8, length: usize, out: *mut Answer);
        pub fn bb_report(text: *const u8, length: usize, out: *mut Tree);
        pub fn bb_report_begin(reader: *mut Reader);
        pub fn bb_report_feed(reader: *mut Reader, piece: *const u8, length: usize);
        pub fn bb_report_end(reader: *mut Reader) -> Tree;
    }
}

/// The number of the program whose judge this is.
pub const VERSION: &str = env!("CARGO_PKG_VERSION");

/// What a certificate that stands shows of its table.
#[derive(Clone, Copy, Debug, PartialEq, Eq)]
pub enum Verdict {
    /// The table halts from the blank tape in so many steps, and leaves so many ones.
    Halts { steps: u64, ones: u64 },
    /// The table never halts from the blank tape.
    Never,
}

/// The kinds of records, by what their certificates are.
#[derive(Clone, Copy, Debug, PartialEq, Eq, Hash)]
#[non_exhaustive]
pub enum Kind {
    /// `H`: the table halts.
    Halting,
    /// `L`: it halts, in more than 100,000,000 steps.
    HaltingLate,
    /// `C`: two configurations are equal.
    Cycler,
    /// `T`: two configurations are equal except for a shift.
    TranslatedCycler,
    /// `B`: no configuration halts after a number of steps.
    Backward,
    /// `N`: words and local configurations that no step leaves.
    NgramCps,
    /// `F`: two finite automata, the first of at most 16 states.
    FiniteAutomata,
    /// `A`: the same, the first of at most 4,096 states.
    LargeAutomata,
    /// `W`: automata that count.
    Counted,
    /// `R`: rules with induction.
    Rules,
    /// `P`: a machine with a proof of its own.
    Named,
    /// `U`: nothing is claimed.
    Unclaimed,
    /// A kind that this crate has no name for, by its letter.
    Other(u8),
}

impl Kind {
    /// The kind of a letter.
    #[must_use]
    pub fn of(letter: u8) -> Kind {
        match letter {
            b'H' => Kind::Halting,
            b'L' => Kind::HaltingLate,
            b'C' => Kind::Cycler,
            b'T' => Kind::TranslatedCycler,
            b'B' => Kind::Backward,
            b'N' => Kind::NgramCps,
            b'F' => Kind::FiniteAutomata,
            b'A' => Kind::LargeAutomata,
            b'W' => Kind::Counted,
            b'R' => Kind::Rules,
            b'P' => Kind::Named,
            b'U' => Kind::Unclaimed,
            other => Kind::Other(other),
        }
    }

    /// The letter that stands for the kind in a record.
    #[must_use]
    pub fn letter(self) -> u8 {
        match self {
            Kind::Halting => b'H',
            Kind::HaltingLate => b'L',
            Kind::Cycler => b'C',
            Kind::TranslatedCycler => b'T',
            Kind::Backward => b'B',
            Kind::NgramCps => b'N',
            Kind::FiniteAutomata => b'F',
            Kind::LargeAutomata => b'A',
            Kind::Counted => b'W',
            Kind::Rules => b'R',
            Kind::Named => b'P',
            Kind::Unclaimed => b'U',
            Kind::Other(other) => other,
        }
    }
}

/// A record that was accepted.
#[derive(Clone, Copy, Debug, PartialEq, Eq)]
#[non_exhaustive]
pub struct Shown {
    /// The verdict; none of a record of the kind U, by which nothing is claimed.
    pub verdict: Option<Verdict>,
    /// The record's kind.
    pub kind: Kind,
    /// Whether the record says the ones itself.
    pub says_ones: bool,
}

/// The fault of a table's text.
#[derive(Clone, Copy, Debug, PartialEq, Eq)]
#[non_exhaustive]
pub struct TableFault {
    /// Its number, 101 to 105.
    pub code: u32,
    /// How many bytes stand before it, where it has a place.
    pub place: Option<u64>,
}

/// Why a record was refused.
#[derive(Clone, Copy, Debug, PartialEq, Eq)]
#[non_exhaustive]
pub enum Refusal {
    /// The text begins with no table: 301.
    NoTable(TableFault),
    /// The text is no record for another reason, 302 to 305.
    NoRecord(u32),
    /// The certificate of this kind doesn't stand (201), asks for more than its limit (202), its check gets too large (203),
    /// or its run isn't seen to repeat (204).
    Certificate { code: u32, kind: Kind },
    /// Memory was refused.
    NoMemory,
}

/// Why a ledger was refused.
#[derive(Clone, Copy, Debug, PartialEq, Eq)]
#[non_exhaustive]
pub enum NoLedger {
    /// The text has no header, or not all of one: 404.
    BadHeader,
    /// The root that it names isn't in order: 405.
    WrongRoot,
    /// Memory was refused.
    NoMemory,
}

/// How the tree of a ledger stands.
#[derive(Clone, Copy, Debug, PartialEq, Eq)]
pub enum Status {
    /// No table is open and none is a holdout.
    Complete,
    /// No table is open, but there are holdouts.
    Holdouts,
    /// Tables are open.
    Working,
}

/// Why a line of a ledger wasn't kept.
#[derive(Clone, Copy, Debug, PartialEq, Eq)]
#[non_exhaustive]
pub enum Why {
    /// The line has no end.
    Torn,
    /// The line is no record, for the reason of this number.
    Unread(u32),
    /// The record wasn't taken, for the reason of this number.
    Unfit(u32),
    /// The record's table is recorded already.
    Repeated,
}

/// What is said of a ledger.
///
/// Where the status is `Complete` and `is_whole` is true, `best` is S(states) and `ones` is Σ(states).
#[derive(Clone, Copy, Debug, PartialEq, Eq)]
#[non_exhaustive]
pub struct Report {
    pub status: Status,
    /// The number of states of the root.
    pub states: u32,
    /// Whether the root is the empty table, with which the tree of all machines of its states begins.
    pub is_whole: bool,
    pub nodes: u64,
    pub halting: u64,
    pub never: u64,
    pub holdouts: u64,
    pub open: u64,
    /// The greatest number of steps recorded of a table that halts.
    pub best: Option<u64>,
    /// The greatest score recorded of a table that halts.
    pub ones: Option<u64>,
    /// The number of the first line that wasn't kept, and why.
    pub left: Option<(u64, Why)>,
}

/// The first call of a process looks whether the library that is linked is the one of this crate.
///
/// # Panics
///
/// It panics where the library has another interface than is declared here: another `libbb.a` was linked.
fn linked() {
    static LOOKED: Once = Once::new();
    LOOKED.call_once(|| {
        // SAFETY: the function takes nothing.
        let version = unsafe { declared::bb_version() };
        assert!(
            version == declared::VERSION,
            "busybeaver {VERSION} needs libbb with interface {}, and interface {version} is linked",
            declared::VERSION
        );
    });
}

/// What a refusal's number means, in words.
#[must_use]
pub fn meaning(code: u32) -> &'static str {
    linked();
    // SAFETY: the function takes a number, and gives a text of the library's that stays and ends with a zero.
    let words = unsafe { CStr::from_ptr(declared::bb_strerror(code)) };
    words.to_str().expect("the words are ASCII")
}

/// Judges one record, a text without a newline.
pub fn check(text: &[u8]) -> Result<Shown, Refusal> {
    linked();
    let mut told = declared::Answer::default();
    // SAFETY: the text is borrowed for the call, with its length, and `told` is a struct of this function's.
    unsafe { declared::bb_check(text.as_ptr(), text.len(), &mut told) };
    let kind = Kind::of(told.kind as u8);
    let shown = |verdict| {
        Ok(Shown {
            verdict,
            kind,
            says_ones: told.has_ones == 1,
        })
    };
    match told.outcome {
        0 => shown(Some(Verdict::Halts {
            steps: told.steps,
            ones: told.ones,
        })),
        1 => shown(Some(Verdict::Never)),
        2 => shown(None),
        3 => Err(refusal(&told)),
        _ => Err(Refusal::NoMemory),
    }
}

fn refusal(told: &declared::Answer) -> Refusal {
    match told.code {
        301 => Refusal::NoTable(TableFault {
            code: told.table_code,
            place: (told.has_place == 1).then_some(told.place),
        }),
        302..=305 => Refusal::NoRecord(told.code),
        code => Refusal::Certificate {
            code,
            kind: Kind::of(told.kind as u8),
        },
    }
}

/// Reports a ledger, by its whole text: every record of it is judged.
pub fn report(text: &[u8]) -> Result<Report, NoLedger> {
    linked();
    let mut told = declared::Tree::default();
    // SAFETY: as in `check`.
    unsafe { declared::bb_report(text.as_ptr(), text.len(), &mut told) };
    as_report(&told)
}

fn as_report(told: &declared::Tree) -> Result<Report, NoLedger> {
    let status = match (told.outcome, told.code) {
        (0, _) => Status::Complete,
        (1, _) => Status::Holdouts,
        (2, _) => Status::Working,
        (3, 404) => return Err(NoLedger::BadHeader),
        (3, _) => return Err(NoLedger::WrongRoot),
        _ => return Err(NoLedger::NoMemory),
    };
    Ok(Report {
        status,
        states: told.states,
        is_whole: told.is_whole == 1,
        nodes: told.nodes,
        halting: told.halting,
        never: told.never,
        holdouts: told.holdouts,
        open: told.open,
        best: (told.has_best == 1).then_some(told.best),
        ones: (told.has_ones == 1).then_some(told.ones),
        left: left(told),
    })
}

/// A ledger whose text comes in pieces, wherever it is cut: fed in their order, and ended once.
///
/// What the end answers is what `report` says of all that was fed. It keeps the records, and of a line that isn't finished no
/// more than a record has. Written to, it is fed, so that `std::io::copy` reports a file.
///
/// ```
/// let mut reader = busybeaver::Reader::new();
/// reader.feed(b"bb-ledger 2 ---");
/// reader.feed(b"---\n");
/// assert_eq!(reader.end(), busybeaver::report(b"bb-ledger 2 ------\n"));
/// ```
pub struct Reader {
    /// It stays where it is, since the library holds it there.
    place: Box<MaybeUninit<declared::Reader>>,
}

// SAFETY: a reader may be handed on to another thread between two calls, and only `&mut` and its value call it.
unsafe impl Send for Reader {}

impl Reader {
    /// Before the first byte.
    #[must_use]
    pub fn new() -> Reader {
        linked();
        let mut place = Box::new(MaybeUninit::uninit());
        // SAFETY: the box has room for a reader, and nobody else knows it.
        unsafe { declared::bb_report_begin(place.as_mut_ptr()) };
        Reader { place }
    }

    /// Takes one more piece of the text.
    pub fn feed(&mut self, piece: &[u8]) {
        // SAFETY: `new` began the reader, and it isn't ended; the piece is borrowed for the call, with its length.
        unsafe { declared::bb_report_feed(self.place.as_mut_ptr(), piece.as_ptr(), piece.len()) };
    }

    /// Reports the text, which ends here.
    pub fn end(self) -> Result<Report, NoLedger> {
        let mut reader = ManuallyDrop::new(self);
        // SAFETY: `new` began the reader, and it is ended once: neither `drop` nor another call of this follows.
        let told = unsafe { declared::bb_report_end(reader.place.as_mut_ptr()) };
        // SAFETY: the box isn't used again, and `reader` doesn't drop it.
        drop(unsafe { std::ptr::read(&reader.place) });
        as_report(&told)
    }
}

impl Default for Reader {
    fn default() -> Reader {
        Reader::new()
    }
}

impl Drop for Reader {
    fn drop(&mut self) {
        // SAFETY: `new` began the reader, and it isn't ended.
        unsafe { declared::bb_report_end(self.place.as_mut_ptr()) };
    }
}

impl fmt::Debug for Reader {
    fn fmt(&self, f: &mut fmt::Formatter<'_>) -> fmt::Result {
        f.debug_struct("Reader").finish_non_exhaustive()
    }
}

impl io::Write for Reader {
    fn write(&mut self, piece: &[u8]) -> io::Result<usize> {
        self.feed(piece);
        Ok(piece.len())
    }

    fn flush(&mut self) -> io::Result<()> {
        Ok(())
    }
}

fn left(told: &declared::Tree) -> Option<(u64, Why)> {
    let why = match told.left_why {
        0 => return None,
        1 => Why::Torn,
        2 => Why::Unread(told.left_code),
        3 => Why::Unfit(told.left_code),
        _ => Why::Repeated,
    };
    Some((told.left_line, why))
}

impl Refusal {
    /// The number of the refusal; none where memory was refused.
    #[must_use]
    pub fn code(&self) -> Option<u32> {
        match self {
            Refusal::NoTable(_) => Some(301),
            Refusal::NoRecord(code) | Refusal::Certificate { code, .. } => Some(*code),
            Refusal::NoMemory => None,
        }
    }

    /// What the refusal means, in words; where there is no table, what the fault of its text means.
    #[must_use]
    pub fn meaning(&self) -> &'static str {
        match self {
            Refusal::NoTable(fault) => meaning(fault.code),
            Refusal::NoRecord(code) | Refusal::Certificate { code, .. } => meaning(*code),
            Refusal::NoMemory => "out of memory",
        }
    }
}

impl NoLedger {
    /// The number of the refusal; none where memory was refused.
    #[must_use]
    pub fn code(&self) -> Option<u32> {
        match self {
            NoLedger::BadHeader => Some(404),
            NoLedger::WrongRoot => Some(405),
            NoLedger::NoMemory => None,
        }
    }

    /// What the refusal means, in words.
    #[must_use]
    pub fn meaning(&self) -> &'static str {
        self.code().map_or("out of memory", meaning)
    }
}

impl fmt::Display for Refusal {
    /// As `bb check` prints it.
    fn fmt(&self, f: &mut fmt::Formatter<'_>) -> fmt::Result {
        match self {
            Refusal::NoTable(TableFault {
                code,
                place: Some(place),
            }) => write!(f, "refused 301 {code} {place}"),
            Refusal::NoTable(TableFault { code, place: None }) => write!(f, "refused 301 {code}"),
            Refusal::NoRecord(code) | Refusal::Certificate { code, .. } => {
                write!(f, "refused {code}")
            }
            Refusal::NoMemory => write!(f, "out of memory"),
        }
    }
}

impl std::error::Error for Refusal {}

impl fmt::Display for NoLedger {
    /// As `bb report` prints it.
    fn fmt(&self, f: &mut fmt::Formatter<'_>) -> fmt::Result {
        match self.code() {
            Some(code) => write!(f, "refused {code}"),
            None => write!(f, "out of memory"),
        }
    }
}

impl std::error::Error for NoLedger {}
