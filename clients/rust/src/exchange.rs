//! The exchange with the program: one thread writes, one reads, and one looks at the time.
use crate::monitor::{Shared, MOST};
use crate::program::Program;
use crate::{history, Status, Verdict};
use std::fmt;
use std::io::{BufRead, BufReader, Write};
use std::process::{ChildStdin, ChildStdout};
use std::time::Instant;

/// A line of the program's input.
pub(crate) enum Line<'a> {
    Command(&'a str),
    Event { kind: &'a str, process: u64, name: &'a str, key: u32, part: &'a str },
}

impl fmt::Display for Line<'_> {
    fn fmt(&self, f: &mut fmt::Formatter<'_>) -> fmt::Result {
        match self {
            Line::Command(text) => f.write_str(text),
            Line::Event { kind, process, name, key, part } => {
                write!(f, "{{:type :{kind} :process {process} :f :{name} :value [{key} {part}]}}")
            }
        }
    }
}

/// Sends the lines. All lines that were appended since its last write go by one write.
pub(crate) fn write(shared: &Shared, mut input: ChildStdin) {
    loop {
        let mut state = shared.lock();
        while state.buffer.is_empty() && !state.closed && state.bad.is_none() {
            state = shared.filled.wait(state).unwrap_or_else(|poisoned| poisoned.into_inner());
        }
        if state.buffer.is_empty() || state.bad.is_some() {
            return;
        }
        let piece = std::mem::replace(&mut state.buffer, String::with_capacity(1 << 16));
        if piece.len() > MOST {
            shared.changed.notify_all();
        }
        state.kept.push(piece.clone());
        drop(state);
        if input.write_all(piece.as_bytes()).is_err() {
            return; // the reader says why
        }
    }
}

/// Takes the replies until the program ends, and says how it has ended.
pub(crate) fn read(shared: &Shared, output: ChildStdout, program: Program) {
    let mut output = BufReader::with_capacity(1 << 16, output);
    let mut refusal = None;
    while refusal.is_none() {
        let mut legal = 0;
        if let Ok(text) = output.fill_buf() {
            let mut left = text;
            while let Some(rest) = left.strip_prefix(b"legal\n") {
                left = rest;
                legal += 1;
            }
        }
        if legal > 0 {
            output.consume(6 * legal);
            refusal = replied(shared, "legal", legal as u64);
            continue;
        }
        let mut line = Vec::new();
        match output.read_until(b'\n', &mut line) {
            Ok(_) if line.last() == Some(&b'\n') => refusal = replied(shared, String::from_utf8_lossy(&line).trim_end(), 1),
            _ => break, // a last line without a line feed is no reply
        }
    }
    if refusal.is_some() {
        drop(output); // it writes no more
    }
    ended(shared, program, refusal);
}

/// Takes a reply that came this number of times. It gives the text of a refusal: the program ends after one.
fn replied(shared: &Shared, reply: &str, count: u64) -> Option<String> {
    let mut state = shared.lock();
    state.replies += count;
    if state.last != reply {
        state.last = reply.to_string();
    }
    if state.replies > state.lines {
        let verdict = Verdict::refused(&format!("jepmon gave {} replies to {} lines", state.replies, state.lines));
        shared.fail(&mut state, verdict);
    }
    if shared.options.wait || state.resetting || state.replies == count {
        shared.changed.notify_all();
    }
    if reply == "legal" {
        return None;
    }
    let mut verdict = match Verdict::of(reply) {
        Some(verdict) => verdict,
        None => return Some(if reply.starts_with("refused") { reply.to_string() } else { format!("refused: {reply}") }),
    };
    let goes_on = verdict.status == Status::Unknown && shared.options.go_on;
    if goes_on && state.unknown.is_some() || state.bad.is_some() {
        return None;
    }
    verdict.tail = history::tail(state.history(), &verdict);
    verdict.hint = history::hint(&verdict, &shared.options, &shared.program, &state.messages.by_ends);
    if goes_on {
        state.unknown = Some(verdict);
    } else {
        shared.fail(&mut state, verdict);
        shared.kill(&state);
    }
    None
}

fn ended(shared: &Shared, program: Program, refusal: Option<String>) {
    let end = program.end(refusal.is_some());
    let mut state = shared.lock();
    state.ended = true;
    let expected = if state.last.starts_with("unknown") { 2 } else { 0 };
    let fault = if let Some(text) = refusal {
        Some(text + &end.why)
    } else if !state.closed || state.replies != state.lines {
        Some(format!("jepmon has ended {}, after {} replies to {} lines{}", end.how, state.replies, state.lines, end.why))
    } else if end.status != Some(expected) {
        Some(format!("jepmon has ended {}, after the reply {}{}", end.how, state.last, end.why))
    } else {
        None
    };
    if let Some(text) = fault {
        shared.fail(&mut state, Verdict::refused(&text));
    }
    shared.changed.notify_all();
}

/// Kills a program that gives no reply in time.
pub(crate) fn watch(shared: &Shared) {
    let timeout = shared.options.timeout;
    let (mut before, mut since) = (u64::MAX, Instant::now());
    let mut state = shared.lock();
    while !state.ended {
        state = shared.changed.wait_timeout(state, timeout / 10).unwrap_or_else(|poisoned| poisoned.into_inner()).0;
        if state.replies != before || state.replies == state.lines && !state.closed {
            before = state.replies;
            since = Instant::now();
        }
        if since.elapsed() > timeout {
            let seconds = timeout.as_secs();
            let (replies, lines) = (state.replies, state.lines);
            let text = format!(
                "jepmon gave no reply for {seconds} seconds, after {replies} replies to {lines} lines: lines take long if many clients share a key, so use \
                 more keys, or a greater timeout"
            );
            shared.fail(&mut state, Verdict::refused(&text));
            shared.kill(&state);
        }
    }
}
