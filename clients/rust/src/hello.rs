//! What a program says of itself: it answers `[:hello]`, or it is older than 1.6, and says its version alone.
use crate::Verdict;
use std::io::{Read, Write};
use std::path::Path;
use std::process::{Command, Stdio};
use std::sync::mpsc;
use std::time::Duration;

const MAJOR: u32 = 1; // of the oldest program that this crate works with
const MINOR: u32 = 4;
const PATIENCE: Duration = Duration::from_secs(60); // for what takes milliseconds, if no machine is busy

/// The names of its kinds, and its limits.
#[derive(Clone)]
pub(crate) struct Hello {
    kinds: Vec<String>,
    pub clients: usize, // operations that are open at once
    pub keys: u32,
}

impl Hello {
    /// Asks the program of this path. The verdict says what is wrong with it.
    pub fn of(path: &Path, timeout: Duration) -> Result<Hello, Verdict> {
        let longest = timeout.min(PATIENCE);
        let told = ask(path, "script", "[:hello]\n", longest)?;
        if let Some(version) = told.strip_prefix("{:jepmon \"").filter(|_| told.ends_with("}\n")).and_then(|rest| rest.split('"').next()) {
            minor(path, version)?;
            let kinds = between(&told, ":kinds [", ']').unwrap_or("").split(' ');
            return Ok(Hello {
                kinds: kinds.map(|kind| kind.trim_start_matches(':').to_string()).collect(),
                clients: limit(&told, ":max-clients ").unwrap_or(64) as usize,
                keys: limit(&told, ":max-keys ").unwrap_or(65536),
            });
        }
        let told = ask(path, "--version", "", longest)?;
        let line = told.lines().next().unwrap_or("");
        let refused = || Verdict::refused(&format!("{} is no jepmon: its --version prints {line:?}", path.display()));
        let minor = minor(path, line.strip_prefix("jepmon ").ok_or_else(refused)?)?;
        let kinds: &[&str] = if minor >= 5 { &["wide-register", "wide-set"] } else { &[] };
        Ok(Hello { kinds: kinds.iter().map(|kind| kind.to_string()).collect(), clients: 64, keys: 65536 })
    }

    pub fn has(&self, kind: &str) -> bool {
        self.kinds.iter().any(|own| own == kind)
    }
}

/// What the program prints if it has this input; nothing, if it does not end in time.
fn ask(path: &Path, word: &str, input: &str, longest: Duration) -> Result<String, Verdict> {
    let mut command = Command::new(path);
    let spawned = command.arg(word).stdin(Stdio::piped()).stdout(Stdio::piped()).stderr(Stdio::null()).spawn();
    let mut child = spawned.map_err(|e| Verdict::refused(&format!("{} can't be used: {e}", path.display())))?;
    let _ = child.stdin.take().expect("a pipe").write_all(input.as_bytes()); // it may have ended without it
    let mut output = child.stdout.take().expect("a pipe");
    let (sender, receiver) = mpsc::channel();
    std::thread::spawn(move || {
        let mut text = Vec::new();
        let _ = output.read_to_end(&mut text);
        let _ = sender.send(String::from_utf8_lossy(&text).into_owned());
    });
    let told = receiver.recv_timeout(longest);
    let _ = child.kill();
    let _ = child.wait();
    Ok(told.unwrap_or_default())
}

/// The minor version, if this crate works with the version.
fn minor(path: &Path, version: &str) -> Result<u32, Verdict> {
    let numbers: Vec<u32> = version.split('.').filter_map(|word| word.parse().ok()).collect();
    match numbers[..] {
        [MAJOR, minor, _] if minor >= MINOR => Ok(minor),
        _ => Err(Verdict::refused(&format!("{} is jepmon {version}: this crate needs jepmon {MAJOR}.{MINOR} or a later {MAJOR}", path.display()))),
    }
}

fn between<'a>(text: &'a str, before: &str, after: char) -> Option<&'a str> {
    text.split_once(before).and_then(|(_, rest)| rest.split(after).next())
}

fn limit(text: &str, name: &str) -> Option<u32> {
    let (_, rest) = text.split_once(name)?;
    rest.split([' ', '}']).next().and_then(|word| word.parse().ok())
}
