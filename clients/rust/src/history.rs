//! The lines of a history, for what is said of a verdict.
use crate::messages::EQUAL;
use crate::program::{is_executable, on_path, Chosen};
use crate::{Options, Status, Verdict};
use std::collections::BTreeSet;
use std::io::Write;
use std::path::{Path, PathBuf};
use std::process::{Command, Stdio};
use std::sync::atomic::{AtomicU32, Ordering};

const MOST: usize = 12; // events in a verdict's text

static FILES: AtomicU32 = AtomicU32::new(0);

/// The last events of the verdict's key, each after its index.
pub(crate) fn tail<'a>(pieces: impl Iterator<Item = &'a str>, verdict: &Verdict) -> Vec<String> {
    let of = format!(" :value [{} ", verdict.key);
    let all: Vec<(usize, &str)> =
        pieces.flat_map(str::lines).take(verdict.index + 1).enumerate().filter(|(_, line)| line.contains(&of)).collect();
    all[all.len().saturating_sub(MOST)..].iter().map(|(index, line)| format!("{index} {line}")).collect()
}

/// What helps if a key is over its budget.
pub(crate) fn hint(verdict: &Verdict, options: &Options, program: &Chosen, by_ends: &BTreeSet<u32>) -> Option<String> {
    if verdict.status != Status::Unknown {
        return None;
    }
    let way = match options.model.wide().filter(|kind| *kind != program.kind) {
        _ if by_ends.contains(&verdict.key) => EQUAL.to_string(),
        None => String::new(),
        Some(kind) if options.by_ends => format!(". Without by_ends the kind {kind} may decide it"),
        Some(kind) => format!(". {} does not have the kind {kind}: a newer jepmon may decide it", program.path.display()),
    };
    let key = verdict.key;
    Some(format!(
        "key {key} has more outcomes than its budget: raise budget, let fewer clients use one key, or write to a new key after timeouts{way}"
    ))
}

/// Writes the history to a file. It asks the program for the other keys over their budget, and jepmon-judge for the cause in words, if
/// it is there.
pub(crate) fn report<'a>(
    verdict: &mut Verdict,
    options: &Options,
    program: &Chosen,
    by_ends: &BTreeSet<u32>,
    pieces: impl Iterator<Item = &'a str>,
) {
    let folder = options.out.clone().or_else(|| std::env::var_os("JEPMON_OUT").map(PathBuf::from)).unwrap_or_else(std::env::temp_dir);
    let name = format!("jepmon-{}-{}.edn", std::process::id(), FILES.fetch_add(1, Ordering::Relaxed));
    let path = folder.join(name);
    let written = std::fs::File::create(&path).and_then(|mut file| {
        for piece in pieces {
            file.write_all(piece.as_bytes())?;
        }
        Ok(())
    });
    if written.is_err() {
        return;
    }
    if verdict.status == Status::Illegal {
        verdict.cause = cause(&path, options, &program.path);
    }
    if verdict.status == Status::Unknown && options.go_on {
        verdict.also = over(&program.check(&path, program.kind), |key| key != verdict.key && !by_ends.contains(&key));
        if !by_ends.is_empty() {
            verdict.also.extend(over(&program.check(&path, options.model.name()), |key| key != verdict.key && by_ends.contains(&key)));
        }
    }
    verdict.history = Some(path);
}

/// Those of these keys that are over their budget, by the report of `jepmon check`. `script` names the first one alone.
fn over(report: &str, is_meant: impl Fn(u32) -> bool) -> Vec<String> {
    let words = report.lines().map(|line| line.split(' ').collect::<Vec<_>>());
    let over = words.filter(|words| words.len() == 11 && words[9] == "over" && words[1].parse().map_or(false, &is_meant));
    over.map(|words| format!("unknown key {} index {}", words[1], words[10])).collect()
}

fn cause(history: &Path, options: &Options, program: &Path) -> Vec<String> {
    let judge = match judge(program) {
        Some(judge) => judge,
        None => return vec![],
    };
    Command::new(judge)
        .arg(history)
        .args(["--json", "--model", options.model.name(), "--concurrency", &options.concurrency.to_string()])
        .env("JEPMON", program)
        .stdin(Stdio::null())
        .stderr(Stdio::null())
        .output()
        .map_or(vec![], |told| cause_of(&String::from_utf8_lossy(&told.stdout)))
}

/// The headline and the sentences of the first cause in the object that jepmon-judge prints.
pub(crate) fn cause_of(json: &str) -> Vec<String> {
    let from = match json.find("\"headline\":") {
        Some(from) => from,
        None => return vec![],
    };
    let (mut lines, mut text, mut inside) = (Vec::new(), String::new(), false);
    let mut letters = json[from..].chars();
    while let Some(letter) = letters.next() {
        match (inside, letter) {
            (false, ']') => break,
            (false, '"') => inside = true,
            (true, '"') => {
                inside = false;
                let line = std::mem::take(&mut text);
                if line != "headline" && line != "sentences" {
                    lines.push(if lines.is_empty() { line } else { format!("  {line}") });
                }
            }
            (true, '\\') => text.extend(letters.next()),
            (true, _) => text.push(letter),
            (false, _) => {}
        }
    }
    lines
}

/// The jepmon-judge that JEPMON_JUDGE names (`no` is none), else beside the program or in its clone, else on the PATH.
fn judge(program: &Path) -> Option<PathBuf> {
    if let Some(named) = std::env::var_os("JEPMON_JUDGE").filter(|named| !named.is_empty()) {
        return Some(PathBuf::from(named)).filter(|path| path != Path::new("no"));
    }
    let beside = program.ancestors().skip(1).take(2).map(|folder| folder.join("jepmon-judge")).find(|path| is_executable(path));
    beside.or_else(|| on_path("jepmon-judge"))
}

#[cfg(test)]
mod tests {
    #[test]
    fn cause_of_a_report() {
        let json = r#"{"bad_keys": [{"cause": {"headline": "Client 0 read 2.", "sentences": ["It held \"1\"."]}}]}"#;
        assert_eq!(super::cause_of(json), ["Client 0 read 2.", "  It held \"1\"."]);
        assert!(super::cause_of("{}").is_empty());
    }
}
