use crate::{Error, Monitor, ABSENT};
use std::collections::BTreeSet;

/// An operation that has begun. Ok, value, values, fail and info end it, and give the verdict that has ended the test as an error.
/// Dropped without an end, as by `?` or a panic, its outcome is unknown.
#[must_use = "end it by ok, value, values, fail or info; dropped, its outcome is unknown"]
pub struct Operation<'a> {
    monitor: &'a Monitor,
    thread: usize,
    name: &'static str,
    key: u32,
    part: String,
    is_over: bool,
}

impl<'a> Operation<'a> {
    pub(crate) fn new(monitor: &'a Monitor, thread: usize, name: &'static str, key: u32, part: String) -> Operation<'a> {
        Operation { monitor, thread, name, key, part, is_over: false }
    }

    pub(crate) fn leave_open(mut self) {
        self.is_over = true;
    }

    fn end(&mut self, outcome: &'static str, answer: Option<String>) -> Result<(), Error> {
        self.is_over = true;
        let part = answer.unwrap_or_else(|| std::mem::take(&mut self.part));
        self.monitor.complete(self.thread, self.name, self.key, outcome, &part)
    }

    /// It took place.
    pub fn ok(mut self) -> Result<(), Error> {
        self.end("ok", None)
    }

    /// It certainly did not take place, as after a refused connection, or if somebody else holds the lock.
    pub fn fail(mut self) -> Result<(), Error> {
        self.end("fail", None)
    }

    /// It may have taken place, or may yet, as after a timeout.
    pub fn info(mut self) -> Result<(), Error> {
        self.end("info", None)
    }

    /// The answer of a read or a dequeue. None is a missing key, or an empty queue.
    pub fn value(mut self, answer: Option<i64>) -> Result<(), Error> {
        if answer.is_none() && self.name == "dequeue" {
            return self.fail();
        }
        self.end("ok", Some(answer.unwrap_or(ABSENT).to_string()))
    }

    /// The members that the read of a set found.
    pub fn values(mut self, members: impl IntoIterator<Item = i64>) -> Result<(), Error> {
        let all: BTreeSet<i64> = members.into_iter().collect();
        let text: Vec<String> = all.iter().map(i64::to_string).collect();
        self.end("ok", Some(format!("#{{{}}}", text.join(" "))))
    }
}

impl Drop for Operation<'_> {
    fn drop(&mut self) {
        if !self.is_over {
            let _ = self.end("info", None); // the monitor's close gives the verdict
        }
    }
}
