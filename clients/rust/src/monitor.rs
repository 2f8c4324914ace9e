use crate::exchange::{self, Line};
use crate::messages::{Messages, DIFFERING};
use crate::program::{kill_group, Chosen, Program};
use crate::{history, Error, Operation, Options, Verdict, ABSENT};
use std::collections::{BTreeMap, HashSet};
use std::fmt::Write as _;
use std::sync::{Arc, Condvar, Mutex, MutexGuard};
use std::thread::JoinHandle;

pub(crate) const MOST: usize = 1 << 20; // bytes that wait for the program: if there are more, operations wait before they begin

/// What the threads share.
pub(crate) struct Shared {
    pub options: Options,
    pub program: Chosen,
    pub id: i32, // of the program's process
    pub state: Mutex<State>,
    pub changed: Condvar, // replies came, there is room, or it is over
    pub filled: Condvar,  // there is something to write, or it is over
}

pub(crate) struct State {
    pub buffer: String,    // lines that the writer has not taken
    pub kept: Vec<String>, // the lines since the last reset
    pub lines: u64,
    pub replies: u64,
    pub last: String,      // the last reply
    free: Vec<usize>,      // threads without an operation
    processes: Vec<u64>,   // of each thread
    begun: HashSet<u32>,
    pub messages: Messages,
    counts: BTreeMap<(&'static str, &'static str), u64>,
    open: BTreeMap<&'static str, u64>,
    pub bad: Option<Verdict>,
    pub unknown: Option<Verdict>,
    pub closed: bool,
    pub resetting: bool,
    pub ended: bool,
}

pub(crate) type Guard<'a> = MutexGuard<'a, State>;

impl Shared {
    pub fn lock(&self) -> Guard<'_> {
        self.state.lock().unwrap_or_else(|poisoned| poisoned.into_inner())
    }

    /// Waits until something has changed.
    pub fn wait<'a>(&self, state: Guard<'a>) -> Guard<'a> {
        self.changed.wait(state).unwrap_or_else(|poisoned| poisoned.into_inner())
    }

    /// Ends the test, once.
    pub fn fail(&self, state: &mut State, verdict: Verdict) {
        state.bad.get_or_insert(verdict);
        self.changed.notify_all();
        self.filled.notify_all();
    }

    pub fn kill(&self, state: &State) {
        if !state.ended {
            kill_group(self.id);
        }
    }

    fn append(&self, state: &mut State, line: Line<'_>) {
        if state.buffer.is_empty() {
            self.filled.notify_one();
        }
        let _ = writeln!(state.buffer, "{line}");
        state.lines += 1;
    }

    /// Has a key judged as this kind.
    fn command(&self, state: &mut State, key: u32, kind: &str) {
        self.append(state, Line::Command(&format!("[:model {key} :{kind}]")));
    }

    /// Waits for the replies to all lines so far, if events wait.
    fn settle(&self, mut state: Guard<'_>) -> Result<(), Error> {
        let lines = state.lines;
        while self.options.wait && state.replies < lines && state.bad.is_none() {
            state = self.wait(state);
        }
        state.test()
    }

    /// Completes the first `unknown` of a test that goes on, at the end of its history.
    fn report_unknown(&self, state: &mut State) {
        if let Some(mut verdict) = state.unknown.take() {
            if verdict.history.is_none() {
                history::report(&mut verdict, &self.options, &self.program, &state.messages.by_ends, state.history());
            }
            state.unknown = Some(verdict);
        }
    }

    fn begin_key(&self, state: &mut State, key: u32, value: i64) {
        state.begun.insert(key);
        let process = state.processes[*state.free.last().expect("a free thread")];
        let part = value.to_string();
        for kind in ["invoke", "ok"] {
            self.append(state, Line::Event { kind, process, name: "write", key, part: &part });
        }
    }
}

impl State {
    /// The events since the last reset, each a line with its line feed.
    pub fn history(&self) -> impl Iterator<Item = &str> {
        let pieces = self.kept.iter().map(String::as_str).chain(std::iter::once(self.buffer.as_str()));
        pieces.flat_map(|piece| piece.split_inclusive('\n')).filter(|line| !line.starts_with("[:"))
    }

    fn test(&self) -> Result<(), Error> {
        match &self.bad {
            Some(bad) => Err(bad.clone().into()),
            None if self.closed => Err(Error::Mistake("the monitor is closed".into())),
            None => Ok(()),
        }
    }
}

/// A running `jepmon script`. Any number of threads may share it. Dropped without [`Monitor::close`], it panics if the history is not
/// legal and nothing else panics.
pub struct Monitor {
    pub(crate) shared: Arc<Shared>,
    threads: Vec<JoinHandle<()>>,
}

impl Monitor {
    /// Starts the program. The verdict says why it can't be used.
    pub fn start(mut options: Options) -> Result<Monitor, Error> {
        let (program, input, output) = Program::start(&mut options)?;
        let state = State {
            buffer: String::new(),
            kept: vec![],
            lines: 0,
            replies: 0,
            last: String::new(),
            free: (0..options.concurrency).rev().collect(),
            processes: (0..options.concurrency as u64).collect(),
            begun: HashSet::new(),
            messages: Messages::default(),
            counts: BTreeMap::new(),
            open: BTreeMap::new(),
            bad: None,
            unknown: None,
            closed: false,
            resetting: false,
            ended: false,
        };
        let shared = Arc::new(Shared {
            id: program.id(),
            program: program.chosen.clone(),
            options,
            state: Mutex::new(state),
            changed: Condvar::new(),
            filled: Condvar::new(),
        });
        let (writing, reading, watching) = (shared.clone(), shared.clone(), shared.clone());
        let threads = vec![
            std::thread::spawn(move || exchange::write(&writing, input)),
            std::thread::spawn(move || exchange::read(&reading, output, program)),
            std::thread::spawn(move || exchange::watch(&watching)),
        ];
        let mut monitor = Monitor { shared, threads };
        monitor.greet()?;
        Ok(monitor)
    }

    /// Asks for the verdict: the reply is legal, or it is no jepmon.
    fn greet(&mut self) -> Result<(), Error> {
        let mut state = self.shared.lock();
        self.shared.append(&mut state, Line::Command("[:verdict]"));
        while state.replies == 0 && state.bad.is_none() {
            state = self.shared.wait(state);
        }
        let bad = state.bad.clone();
        if bad.is_none() {
            state.kept.clear();
        }
        drop(state);
        match bad {
            None => Ok(()),
            Some(bad) => {
                let _ = self.end();
                Err(bad.into())
            }
        }
    }

    // --- Operations ---

    fn mistake(&self, name: &str, key: u32) -> Result<(), Error> {
        let model = self.shared.options.model;
        if !model.operations().contains(&name) {
            return Err(Error::Mistake(format!("a {} has no operation {name}: it has {:?}", model.name(), model.operations())));
        }
        let most = self.shared.program.hello.keys - 1;
        if key > most {
            return Err(Error::Mistake(format!("key {key} is none: keys are 0 to {most}")));
        }
        Ok(())
    }

    fn invoke(&self, name: &'static str, key: u32, part: String) -> Result<Operation<'_>, Error> {
        self.mistake(name, key)?;
        let shared = &self.shared;
        let mut state = shared.lock();
        state.test()?;
        while state.buffer.len() > MOST || state.resetting {
            state = shared.wait(state);
            state.test()?;
        }
        if state.free.is_empty() {
            let most = shared.options.concurrency;
            let limit = shared.program.hello.clients;
            return Err(Error::Mistake(format!("more than {most} operations are open at once: raise concurrency, {limit} at most")));
        }
        if shared.options.model.is_register() && !state.begun.contains(&key) {
            shared.begin_key(&mut state, key, shared.options.initial.unwrap_or(ABSENT));
        }
        let thread = state.free.pop().expect("a free thread");
        *state.open.entry(name).or_insert(0) += 1;
        let process = state.processes[thread];
        if shared.program.kind == DIFFERING && state.messages.begins(name, key, &part) {
            shared.command(&mut state, key, shared.options.model.name());
        }
        shared.append(&mut state, Line::Event { kind: "invoke", process, name, key, part: &part });
        let operation = Operation::new(self, thread, name, key, part);
        match shared.settle(state) {
            Ok(()) => Ok(operation),
            Err(error) => {
                operation.leave_open();
                Err(error)
            }
        }
    }

    pub(crate) fn complete(&self, thread: usize, name: &'static str, key: u32, outcome: &'static str, part: &str) -> Result<(), Error> {
        let shared = &self.shared;
        let mut state = shared.lock();
        state.test()?;
        *state.open.entry(name).or_insert(1) -= 1;
        let process = state.processes[thread];
        shared.append(&mut state, Line::Event { kind: outcome, process, name, key, part });
        *state.counts.entry((name, outcome)).or_insert(0) += 1;
        if outcome == "fail" {
            state.messages.fails(name, key, part);
        }
        if outcome == "info" {
            state.processes[thread] += shared.options.concurrency as u64;
        }
        state.free.push(thread);
        shared.settle(state)
    }

    /// Says what a register holds before its first operation.
    pub fn begin(&self, key: u32, value: i64) -> Result<(), Error> {
        self.mistake("write", key)?;
        let mut state = self.shared.lock();
        state.test()?;
        if state.begun.contains(&key) || state.free.is_empty() {
            return Err(Error::Mistake(format!("key {key} has begun: say what it holds before its first operation")));
        }
        self.shared.begin_key(&mut state, key, value);
        self.shared.settle(state)
    }

    /// Reads a register or a set. End it by `value`, or `values` for a set.
    pub fn read(&self, key: u32) -> Result<Operation<'_>, Error> {
        self.invoke("read", key, "nil".into())
    }

    /// Writes a value to a register.
    pub fn write(&self, key: u32, value: i64) -> Result<Operation<'_>, Error> {
        self.invoke("write", key, value.to_string())
    }

    /// Sets a cas-register to the value if it is old. If it was another one, the operation fails.
    pub fn cas(&self, key: u32, old: i64, value: i64) -> Result<Operation<'_>, Error> {
        self.invoke("cas", key, format!("[{old} {value}]"))
    }

    /// Adds a member to a set.
    pub fn add(&self, key: u32, member: i64) -> Result<Operation<'_>, Error> {
        self.invoke("add", key, member.to_string())
    }

    /// Sends a message to a queue.
    pub fn enqueue(&self, key: u32, message: i64) -> Result<Operation<'_>, Error> {
        self.invoke("enqueue", key, message.to_string())
    }

    /// Receives a message from a queue. End it by `value`; none is an empty queue.
    pub fn dequeue(&self, key: u32) -> Result<Operation<'_>, Error> {
        self.invoke("dequeue", key, "nil".into())
    }

    /// Takes a lock. If somebody holds it, the operation fails.
    pub fn acquire(&self, key: u32) -> Result<Operation<'_>, Error> {
        self.invoke("acquire", key, "nil".into())
    }

    /// Gives a lock back.
    pub fn release(&self, key: u32) -> Result<Operation<'_>, Error> {
        self.invoke("release", key, "nil".into())
    }

    // --- What has come of it ---

    /// The verdict that has ended the test, if there is one so far.
    pub fn failure(&self) -> Option<Verdict> {
        self.shared.lock().bad.clone()
    }

    /// How many operations ended how, as `("write", "ok")`, and how many are open, as `("write", "open")`.
    pub fn counts(&self) -> BTreeMap<(&'static str, &'static str), u64> {
        let state = self.shared.lock();
        let open = state.open.iter().filter(|(_, number)| **number > 0).map(|(name, number)| ((*name, "open"), *number));
        state.counts.clone().into_iter().chain(open).collect()
    }

    /// Begins a new history in the same program, and waits for the verdict on the one before. No operation may be open. The keys
    /// begin again, so the store has to have nothing under them. A history has at most 1,048,576 events.
    pub fn reset(&self) -> Result<(), Error> {
        let mut state = self.shared.lock();
        state.test()?;
        let open: u64 = state.open.values().sum();
        if open > 0 || state.resetting {
            return Err(Error::Mistake(format!("{open} operations are open: a reset waits for none")));
        }
        state.resetting = true;
        self.shared.append(&mut state, Line::Command("[:rewind 0]"));
        while state.replies < state.lines && state.bad.is_none() {
            state = self.shared.wait(state);
        }
        state.resetting = false;
        self.shared.changed.notify_all();
        state.test()?;
        self.shared.report_unknown(&mut state);
        state.kept.clear();
        state.begun.clear();
        for key in std::mem::take(&mut state.messages).by_ends {
            self.shared.command(&mut state, key, self.shared.program.kind);
        }
        state.processes = (0..self.shared.options.concurrency as u64).collect();
        Ok(())
    }

    /// Ends the program. It gives the verdict as an error, unless each line got its reply and all is legal.
    pub fn close(mut self) -> Result<(), Error> {
        self.end()
    }

    fn end(&mut self) -> Result<(), Error> {
        self.shared.lock().closed = true;
        self.shared.filled.notify_all();
        self.shared.changed.notify_all();
        for thread in self.threads.drain(..) {
            let _ = thread.join();
        }
        let mut state = self.shared.lock();
        if let Some(mut verdict) = state.bad.clone() {
            history::report(&mut verdict, &self.shared.options, &self.shared.program, &state.messages.by_ends, state.history());
            return Err(verdict.into());
        }
        self.shared.report_unknown(&mut state);
        state.unknown.clone().map_or(Ok(()), |verdict| Err(verdict.into()))
    }
}

impl Drop for Monitor {
    fn drop(&mut self) {
        if self.threads.is_empty() {
            return;
        }
        let end = self.end();
        if let (Err(error), false) = (end, std::thread::panicking()) {
            panic!("{error}");
        }
    }
}
