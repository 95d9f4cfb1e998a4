//! Answers calls of the program over files in memory, a line each. A line says what fails, `read K`, `put K` or, where the output takes
//! no more than so many bytes, `room N`; and behind `\/` each, the words, and the files as `NAME=CONTENT`, of which `-` is standard
//! input. An answer is the status and what was taken. Want of memory ends the program. The exit status is the last call's.
#![tactic(auto)]

use cat_app::{Status, catala};
use cat_io::{MemShelf, MemSink};
use cat_rows::{Arguments, Problem, escaped, halves, source_bytes, spelled};
use std::alloc::{AllocError, Global};
use std::io::{self, BufRead, BufReader, BufWriter, ErrorKind, Write};
use std::process::ExitCode;

const ROOM: u32 = 100_000;

/// What of a call fails.
#[derive(Clone, Copy, PartialEq, Eq)]
enum Failing {
    Read,
    Put,
    Room,
}

const FAILING: [(&str, Failing); 3] = [
    ("read", Failing::Read),
    ("put", Failing::Put),
    ("room", Failing::Room),
];

fn main(rt: HostRuntime) -> ExitCode {
    match answers(&rt) {
        Ok(status) => ExitCode::from(status.code()),
        Err(_) => ExitCode::from(Status::Memory.code()),
    }
}

fn answers(rt: &HostRuntime) -> io::Result<Status> {
    let alloc = rt.alloc();
    let lines = BufReader::new(alloc, rt.reader())?.lines(alloc);
    let mut out = BufWriter::new(alloc, io::writer(rt))?;
    let mut last = Status::Fine;
    for line in lines {
        let line = line?;
        match answer(alloc, line.as_str()) {
            Ok((status, text)) => {
                last = status;
                writeln!(out, "{text}")?;
                if status == Status::Memory {
                    break;
                }
            }
            Err(Problem::Unreadable) => writeln!(out, "unreadable")?,
            Err(Problem::Memory) => return Err(io::Error::from(ErrorKind::OutOfMemory)),
        }
    }
    out.flush()?;
    Ok(last)
}

/// The status of a call, and its answer.
fn answer(alloc: Global, line: &str) -> Result<(Status, String), Problem> {
    let mut parts = line.split("\\/");
    let mut failing = Arguments::of(parts.next().unwrap_or(""));
    let (what, number) = (failing.choice(&FAILING)?, failing.count()?);
    let words = words_of(alloc, parts.next().unwrap_or(""))?;
    let mut files = Vec::new(alloc);
    for file in parts {
        let (name, content) = halves(file, "=")?;
        files.push((spelled(alloc, name)?, source_bytes(alloc, content)?))?;
    }
    let mut shelf = MemShelf::new(alloc, files, listed(alloc, what == Failing::Read, number)?);
    let room = if what == Failing::Room { number } else { ROOM };
    let puts = listed(alloc, what == Failing::Put, number)?;
    let mut sink = MemSink::new(alloc, room as usize, puts)?;
    let status = catala(alloc, &words, &mut shelf, &mut sink);
    Ok((status, told(alloc, &words, status, sink.taken())?))
}

fn words_of(alloc: Global, text: &str) -> Result<Vec<String>, AllocError> {
    let mut words = Vec::new(alloc);
    for word in text.split(' ') {
        words.push(spelled(alloc, word)?)?;
    }
    Ok(words)
}

fn listed(alloc: Global, is_listed: bool, number: u32) -> Result<Vec<u64>, AllocError> {
    let mut list = Vec::new(alloc);
    if is_listed {
        list.push(u64::from(number))?;
    }
    Ok(list)
}

// Where memory runs out, nothing was taken, but of many inputs whole lines: anything else ends the program.
fn told(alloc: Global, words: &[String], status: Status, taken: &[u8]) -> Result<String, AllocError> {
    let is_many = words.first().is_some_and(|word| word.as_str() == "many");
    let is_whole = taken.is_empty() || is_many && taken.last() == Some(&b'\n');
    if status == Status::Memory && !is_whole {
        unreachable!();
    }
    let Ok(taken) = str::from_utf8(taken) else {
        unreachable!();
    };
    let (code, taken) = (status.code(), escaped(alloc, taken)?);
    format!(in alloc; "{code} {taken}")
}
