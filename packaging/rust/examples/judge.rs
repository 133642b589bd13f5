//! Judges a file of records, a line each: judge FILE [THREADS]. Prints each answer, and ends with 1 where one was refused.
//!
//! Each is printed as `bb check` does, except for the table, which is as the record has it. With THREADS so many threads
//! judge the records side by side, each of them all of the file; then the answers of each have to be those of the first.

use busybeaver::{check, Refusal, Shown, Verdict};
use std::io::{self, Write};
use std::process::ExitCode;
use std::{env, fs, thread};

fn main() -> io::Result<ExitCode> {
    let words: Vec<String> = env::args().collect();
    let text = fs::read(&words[1])?;
    let threads = words.get(2).and_then(|word| word.parse().ok()).unwrap_or(1);
    let records: Vec<&[u8]> = lines(&text);
    let told: Vec<(Vec<u8>, bool)> = thread::scope(|scope| {
        let judges: Vec<_> = (0..threads)
            .map(|n| {
                scope.spawn({
                    let records = &records;
                    move || judge(records, n)
                })
            })
            .collect();
        judges
            .into_iter()
            .map(|judge| judge.join().expect("a judge ends"))
            .collect()
    });
    if told.iter().any(|one| *one != told[0]) {
        eprintln!("threads were answered otherwise");
        return Ok(ExitCode::from(2));
    }
    io::stdout().write_all(&told[0].0)?;
    Ok(ExitCode::from(u8::from(!told[0].1)))
}

/// The lines of a text, each without its newline; the last one may have none.
fn lines(text: &[u8]) -> Vec<&[u8]> {
    let mut lines: Vec<&[u8]> = text.split(|&byte| byte == b'\n').collect();
    if lines.last() == Some(&&b""[..]) {
        lines.pop();
    }
    lines
}

/// The answers to records, and whether each was accepted. Each thread begins elsewhere.
fn judge(records: &[&[u8]], begin: usize) -> (Vec<u8>, bool) {
    let mut answers = vec![Vec::new(); records.len()];
    let mut accepted = true;
    for step in 0..records.len() {
        let place = (step + begin * 7_919) % records.len();
        let answer = check(records[place]);
        accepted &= answer.is_ok();
        answers[place] = line_of(records[place], answer);
    }
    (answers.concat(), accepted)
}

/// The line that tells of an answer.
fn line_of(record: &[u8], answer: Result<Shown, Refusal>) -> Vec<u8> {
    let table = record
        .split(|&byte| byte == b' ')
        .next()
        .unwrap_or_default();
    let said = match answer {
        Err(refusal) => return format!("{refusal}\n").into_bytes(),
        Ok(Shown {
            verdict: Some(Verdict::Halts { steps, ones }),
            says_ones: true,
            ..
        }) => format!(" halts {steps} ones {ones}\n"),
        Ok(Shown {
            verdict: Some(Verdict::Halts { steps, .. }),
            ..
        }) => format!(" halts {steps}\n"),
        Ok(Shown {
            verdict: Some(Verdict::Never),
            ..
        }) => " never\n".to_string(),
        Ok(Shown { verdict: None, .. }) => " undecided\n".to_string(),
    };
    [table, said.as_bytes()].concat()
}
