//! Judges live, in the test that drives them, whether concurrent operations are linearizable. It drives the program `jepmon script`,
//! and needs Linux and nothing beyond std.
//!
//! ```no_run
//! use jepmon::{Monitor, Options};
//! # struct Store; impl Store { fn put(&self, _: u32, _: i64) -> std::io::Result<()> { Ok(()) } fn get(&self, _: u32) -> std::io::Result<Option<i64>> { Ok(None) } }
//! # let store = Store;
//! # fn main() -> Result<(), Box<dyn std::error::Error>> {
//! # let (monitor, store) = (Monitor::start(Options::default())?, &store);
//! let write = monitor.write(7, 3)?; // begins before the request is sent
//! store.put(7, 3)?;                 // an early return or a panic drops the guard: the outcome is unknown
//! write.ok()?;
//! let read = monitor.read(7)?;
//! read.value(store.get(7)?)?;       // None: the key is missing
//! monitor.close()?;                 // an error, if the history is not legal
//! # Ok(()) }
//! ```
//!
//! No operation waits for a reply. The order of the lines is the history, and a line has its place when it is appended, so the
//! verdict may come later. [`Options::wait`] makes each event wait for its reply.
#![warn(missing_docs)]

mod exchange;
mod hello;
mod history;
mod messages;
mod monitor;
mod operation;
mod program;
mod verdict;

pub use monitor::Monitor;
pub use operation::Operation;
pub use verdict::{Error, Status, Verdict};

use std::path::PathBuf;
use std::time::Duration;

/// The value of a missing key. The key of a register begins with it, if [`Options::initial`] is none.
pub const ABSENT: i64 = i64::MIN;

/// The kind of object that each key is.
#[derive(Clone, Copy, Debug, PartialEq, Eq)]
#[allow(missing_docs)]
pub enum Model {
    Register,
    CasRegister,
    Mutex,
    FifoQueue,
    UnorderedQueue,
    Set,
}

impl Model {
    /// Its name, as `cas-register`.
    pub fn name(self) -> &'static str {
        match self {
            Model::Register => "register",
            Model::CasRegister => "cas-register",
            Model::Mutex => "mutex",
            Model::FifoQueue => "fifo-queue",
            Model::UnorderedQueue => "unordered-queue",
            Model::Set => "set",
        }
    }

    /// The name of the program's second kind of the same object, of which fewer outcomes count against the budget.
    pub(crate) fn wide(self) -> Option<&'static str> {
        match self {
            Model::Register => Some("wide-register"),
            Model::CasRegister => Some("wide-cas-register"),
            Model::FifoQueue => Some(messages::DIFFERING),
            Model::UnorderedQueue => Some("wide-unordered-queue"),
            Model::Set => Some("wide-set"),
            Model::Mutex => None,
        }
    }

    pub(crate) fn operations(self) -> &'static [&'static str] {
        match self {
            Model::Register => &["read", "write"],
            Model::CasRegister => &["read", "write", "cas"],
            Model::Mutex => &["acquire", "release"],
            Model::FifoQueue | Model::UnorderedQueue => &["enqueue", "dequeue"],
            Model::Set => &["add", "read"],
        }
    }

    pub(crate) fn is_register(self) -> bool {
        matches!(self, Model::Register | Model::CasRegister)
    }
}

impl std::str::FromStr for Model {
    type Err = Error;

    /// The model of this name, as `cas-register`, or of its kind, as `wide-register`.
    fn from_str(name: &str) -> Result<Model, Error> {
        let all = [Model::Register, Model::CasRegister, Model::Mutex, Model::FifoQueue, Model::UnorderedQueue, Model::Set];
        let found = all.iter().find(|model| model.name() == name || model.wide() == Some(name));
        found.copied().ok_or_else(|| Error::Mistake(format!("there is no model {name}")))
    }
}

/// How a monitor judges.
#[derive(Clone, Debug)]
pub struct Options {
    /// The path of the program; else `JEPMON` names it, or it lies beside the crate, or it is jepmon on the PATH.
    pub program: Option<PathBuf>,
    /// The kind of all keys.
    pub model: Model,
    /// How many operations may be open at once, 1 to 64; 0 is 64.
    pub concurrency: usize,
    /// How many outcomes of a key are followed before it is unknown.
    pub budget: Option<u32>,
    /// Keys are judged by all their outcomes: no model is judged as its wide kind.
    pub by_ends: bool,
    /// Each event waits for its reply: no request is sent after a bad event.
    pub wait: bool,
    /// What each register holds at first; without it, it is missing.
    pub initial: Option<i64>,
    /// A key that is over its budget does not end the test; [`Monitor::close`] says unknown then.
    pub go_on: bool,
    /// How long a reply may take.
    pub timeout: Duration,
    /// The folder for the history of a test that is not legal; else `JEPMON_OUT` names it, or it is that of temporary files.
    pub out: Option<PathBuf>,
}

impl Default for Options {
    fn default() -> Options {
        Options {
            program: None,
            model: Model::Register,
            concurrency: 0,
            budget: None,
            by_ends: false,
            wait: false,
            initial: None,
            go_on: false,
            timeout: Duration::from_secs(60),
            out: None,
        }
    }
}
