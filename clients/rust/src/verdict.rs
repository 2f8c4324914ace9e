use std::fmt;
use std::path::PathBuf;

/// The word of a verdict.
#[derive(Clone, Copy, Debug, PartialEq, Eq)]
pub enum Status {
    /// The history is not linearizable.
    Illegal,
    /// A key is over its budget.
    Unknown,
    /// The program did not take a line, or is not as it should be.
    Refused,
}

/// Why a history is not legal.
#[derive(Clone, PartialEq, Eq)]
pub struct Verdict {
    /// Its word.
    pub status: Status,
    /// Of illegal and unknown: the key.
    pub key: u32,
    /// Of illegal and unknown: the event, from 0.
    pub index: usize,
    /// What the program said, or what is wrong with it.
    pub reply: String,
    /// The last events of the key, each after its index.
    pub tail: Vec<String>,
    /// Of unknown: what helps.
    pub hint: Option<String>,
    /// Of unknown, at the end of a test that goes on: the other keys over their budget, as `unknown key 2 index 13`.
    pub also: Vec<String>,
    /// The cause in words, at the end, if jepmon-judge is there.
    pub cause: Vec<String>,
    /// The file of the history, at the end.
    pub history: Option<PathBuf>,
}

impl Verdict {
    pub(crate) fn refused(why: &str) -> Verdict {
        let reply = if why.starts_with("refused") { why.to_string() } else { format!("refused: {why}") };
        Verdict { status: Status::Refused, key: 0, index: 0, reply, tail: vec![], hint: None, also: vec![], cause: vec![], history: None }
    }

    /// The verdict of a reply; none if it is not illegal or unknown.
    pub(crate) fn of(reply: &str) -> Option<Verdict> {
        let words: Vec<&str> = reply.split(' ').collect();
        if words.len() != 5 || words[1] != "key" || words[3] != "index" {
            return None;
        }
        let status = match words[0] {
            "illegal" => Status::Illegal,
            "unknown" => Status::Unknown,
            _ => return None,
        };
        let (key, index) = (words[2].parse().ok()?, words[4].parse().ok()?);
        Some(Verdict { status, key, index, reply: reply.to_string(), tail: vec![], hint: None, also: vec![], cause: vec![], history: None })
    }
}

impl fmt::Display for Verdict {
    fn fmt(&self, f: &mut fmt::Formatter<'_>) -> fmt::Result {
        write!(f, "{}", self.reply)?;
        for line in self.tail.iter().chain(&self.hint) {
            write!(f, "\n  {line}")?;
        }
        for line in &self.also {
            write!(f, "\n  also {line}")?;
        }
        for line in &self.cause {
            write!(f, "\n  {line}")?;
        }
        match &self.history {
            Some(file) => write!(f, "\n  history: {}", file.display()),
            None => Ok(()),
        }
    }
}

impl fmt::Debug for Verdict {
    fn fmt(&self, f: &mut fmt::Formatter<'_>) -> fmt::Result {
        fmt::Display::fmt(self, f)
    }
}

/// Why an operation did not begin or end, or what has come of the test.
#[derive(Clone, PartialEq, Eq)]
pub enum Error {
    /// The verdict has ended the test.
    Verdict(Box<Verdict>),
    /// The test made a mistake, which changed nothing: a key that is none, too many open operations.
    Mistake(String),
}

impl Error {
    /// The verdict, if it is one.
    pub fn verdict(&self) -> Option<&Verdict> {
        match self {
            Error::Verdict(verdict) => Some(verdict),
            Error::Mistake(_) => None,
        }
    }
}

impl From<Verdict> for Error {
    fn from(verdict: Verdict) -> Error {
        Error::Verdict(Box::new(verdict))
    }
}

impl fmt::Display for Error {
    fn fmt(&self, f: &mut fmt::Formatter<'_>) -> fmt::Result {
        match self {
            Error::Verdict(verdict) => write!(f, "{verdict}"),
            Error::Mistake(text) => write!(f, "jepmon: {text}"),
        }
    }
}

impl fmt::Debug for Error {
    fn fmt(&self, f: &mut fmt::Formatter<'_>) -> fmt::Result {
        fmt::Display::fmt(self, f) // so that unwrap shows lines
    }
}

impl std::error::Error for Error {}
