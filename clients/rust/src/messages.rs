//! The messages of fifo queues. The kind wide-fifo-queue is over as soon as two enqueues of one value have not failed. Such a queue is judged
//! by its ends instead, from its second enqueue of the value on.
use std::collections::{BTreeSet, HashSet};

/// The kind.
pub(crate) const DIFFERING: &str = "wide-fifo-queue";

/// It is said if such a queue is over its budget.
pub(crate) const EQUAL: &str =
    ". Two enqueues of one value have not failed, so the queue is judged by its ends: give each message a value of its own";

/// What was sent.
#[derive(Default)]
pub(crate) struct Messages {
    pub by_ends: BTreeSet<u32>,  // the keys that are judged so
    sent: HashSet<(u32, String)>, // and have not failed
}

impl Messages {
    /// Whether the key is to be judged by its ends from this operation on, which begins.
    pub fn begins(&mut self, name: &str, key: u32, value: &str) -> bool {
        if name != "enqueue" || self.by_ends.contains(&key) {
            return false;
        }
        !self.sent.insert((key, value.to_string())) && self.by_ends.insert(key)
    }

    /// The operation has failed.
    pub fn fails(&mut self, name: &str, key: u32, value: &str) {
        if name == "enqueue" {
            self.sent.remove(&(key, value.to_string()));
        }
    }
}
