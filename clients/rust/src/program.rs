//! The program: where it is, and how it ends.
use crate::hello::Hello;
use crate::{Options, Verdict};
use std::io::Read;
use std::os::unix::fs::PermissionsExt;
use std::os::unix::process::{CommandExt, ExitStatusExt};
use std::path::{Path, PathBuf};
use std::process::{Child, ChildStdin, ChildStdout, Command, ExitStatus, Stdio};
use std::thread::JoinHandle;
use std::time::Duration;

extern "C" {
    fn setsid() -> i32;
    fn kill(process: i32, signal: i32) -> i32;
}

/// The program, and the options that `jepmon script` and `jepmon check` have.
#[derive(Clone)]
pub(crate) struct Chosen {
    pub path: PathBuf,
    pub hello: Hello,
    pub kind: &'static str, // by which it judges all keys but fifo queues of equal values
    words: Vec<String>,
}

impl Chosen {
    /// Finds the program, and completes the options by what it says of itself.
    fn new(options: &mut Options) -> Result<Chosen, Verdict> {
        let path = find(options.program.as_deref())?;
        let hello = Hello::of(&path, options.timeout)?;
        if options.concurrency == 0 {
            options.concurrency = hello.clients.min(64);
        }
        let kind = options.model.wide().filter(|kind| hello.has(kind) && !options.by_ends).unwrap_or(options.model.name());
        let mut words = vec!["--concurrency".into(), options.concurrency.to_string()];
        if let Some(budget) = options.budget {
            words.extend(["--budget".into(), budget.to_string()]);
        }
        Ok(Chosen { path, hello, kind, words })
    }

    /// What `jepmon check` says of a history, by the kind of this name.
    pub fn check(&self, history: &Path, kind: &str) -> String {
        let mut command = Command::new(&self.path);
        command.arg("check").arg(history).args(&self.words).args(["--model", kind]).stdin(Stdio::null()).stderr(Stdio::null());
        command.output().map_or(String::new(), |told| String::from_utf8_lossy(&told.stdout).into_owned())
    }
}

/// A running `jepmon script`.
pub(crate) struct Program {
    pub chosen: Chosen,
    child: Child,
    errors: JoinHandle<String>,
}

/// How a program has ended.
pub(crate) struct End {
    pub status: Option<i32>,
    pub how: String,
    pub why: String,
}

impl Program {
    pub fn start(options: &mut Options) -> Result<(Program, ChildStdin, ChildStdout), Verdict> {
        let chosen = Chosen::new(options)?;
        let mut command = Command::new(&chosen.path);
        command.args(["script", "--strict"]).args(&chosen.words).args(["--model", chosen.kind]);
        command.stdin(Stdio::piped()).stdout(Stdio::piped()).stderr(Stdio::piped());
        // SAFETY: setsid is async-signal-safe. Ctrl-C in a terminal is for the test.
        unsafe {
            command.pre_exec(|| {
                setsid();
                Ok(())
            });
        }
        let mut child = command.spawn().map_err(|e| Verdict::refused(&format!("{}: {e}", chosen.path.display())))?;
        let (input, output) = (child.stdin.take().unwrap(), child.stdout.take().unwrap());
        let mut stderr = child.stderr.take().unwrap();
        let errors = std::thread::spawn(move || {
            let mut text = Vec::new();
            let _ = stderr.read_to_end(&mut text);
            String::from_utf8_lossy(&text).split_whitespace().collect::<Vec<_>>().join(" ")
        });
        Ok((Program { chosen, child, errors }, input, output))
    }

    pub fn id(&self) -> i32 {
        self.child.id() as i32
    }

    /// Waits for its end. A program that is not needed any more is killed after a second.
    pub fn end(mut self, is_over: bool) -> End {
        for _ in 0..100 {
            if !is_over || !matches!(self.child.try_wait(), Ok(None)) {
                break;
            }
            std::thread::sleep(Duration::from_millis(10));
        }
        if is_over && matches!(self.child.try_wait(), Ok(None)) {
            kill_group(self.id());
        }
        let status = self.child.wait().unwrap_or_else(|_| ExitStatus::from_raw(-1));
        let how = match (status.code(), status.signal()) {
            (Some(code), _) => format!("with status {code}"),
            (None, signal) => format!("by signal {}", signal.unwrap_or(0)),
        };
        let errors = self.errors.join().unwrap_or_default();
        let why = if errors.is_empty() { errors } else { format!(": {errors}") };
        End { status: status.code(), how, why }
    }
}

/// Kills the process group of a program that has not been waited for.
pub(crate) fn kill_group(id: i32) {
    // SAFETY: the process is a child that was not waited for, so its number is its own.
    unsafe {
        kill(-id, 9);
    }
}

/// The path that is named, or that JEPMON names; else the program beside the crate or in its clone; else jepmon on the PATH.
fn find(named: Option<&Path>) -> Result<PathBuf, Verdict> {
    if let Some(path) = named {
        return Ok(path.to_path_buf());
    }
    if let Some(path) = std::env::var_os("JEPMON").filter(|path| !path.is_empty()) {
        return Ok(PathBuf::from(path));
    }
    for folder in Path::new(env!("CARGO_MANIFEST_DIR")).ancestors() {
        for name in ["jepmon", "dist/jepmon"] {
            if is_machine_code(&folder.join(name)) {
                return Ok(folder.join(name)); // a script of a clone is none
            }
        }
    }
    on_path("jepmon").ok_or_else(|| Verdict::refused("there is no jepmon: JEPMON names the program, or it is on the PATH"))
}

pub(crate) fn on_path(name: &str) -> Option<PathBuf> {
    let path = std::env::var_os("PATH")?;
    std::env::split_paths(&path).map(|folder| folder.join(name)).find(|path| is_executable(path))
}

pub(crate) fn is_executable(path: &Path) -> bool {
    path.metadata().map_or(false, |found| found.is_file() && found.permissions().mode() & 0o111 != 0)
}

fn is_machine_code(path: &Path) -> bool {
    let mut first = [0; 4];
    is_executable(path) && std::fs::File::open(path).and_then(|mut file| file.read_exact(&mut first)).is_ok() && &first == b"\x7fELF"
}
