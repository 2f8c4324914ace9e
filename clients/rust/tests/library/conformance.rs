//! Runs the scenarios of clients/conformance, whose words clients/README.md explains.
use jepmon::{Error, Monitor, Operation, Options, Verdict};
use std::collections::HashMap;
use std::path::{Path, PathBuf};
use std::sync::Mutex;
use std::time::Duration;

type Fault = Result<(), String>;

fn table() -> PathBuf {
    Path::new(env!("CARGO_MANIFEST_DIR")).join("../conformance").canonicalize().unwrap()
}

#[test]
fn scenarios() {
    let text = std::fs::read_to_string(table().join("scenarios.txt")).unwrap();
    let lines = text.lines().map(|line| line.split_whitespace().collect::<Vec<_>>());
    let mut all: Vec<Vec<Vec<&str>>> = vec![];
    for words in lines.filter(|words| !words.is_empty() && !words[0].starts_with('#')) {
        if words[0] == "scenario" {
            all.push(vec![]);
        }
        all.last_mut().unwrap().push(words);
    }
    let mut failed = vec![];
    let minor = minor_version();
    for scenario in all.iter().filter(|scenario| since(scenario) <= minor) {
        for wait in [false, true] {
            if wait && scenario.contains(&vec!["waiting", "no"]) {
                continue;
            }
            let name = format!("{}{}", scenario[0][1], if wait { "_waiting" } else { "" });
            match run(scenario, wait) {
                Ok(()) => println!("conformance {name}: ok"),
                Err(fault) => {
                    println!("conformance {name}: FAILED: {fault}");
                    failed.push(name);
                }
            }
        }
    }
    assert!(failed.is_empty(), "failed: {failed:?}");
}

/// The minor version of the program that is tested.
fn minor_version() -> u32 {
    let program = std::env::var_os("JEPMON").map_or_else(|| table().join("../../dist/jepmon"), PathBuf::from);
    let told = std::process::Command::new(program).arg("--version").output().unwrap();
    String::from_utf8_lossy(&told.stdout).split('.').nth(1).unwrap().parse().unwrap()
}

/// The minor version of the program that the scenario needs, or 0.
fn since(scenario: &[Vec<&str>]) -> u32 {
    scenario.iter().find(|words| words[0] == "since").map_or(0, |words| words[1].parse().unwrap())
}

/// What a scenario says before its first operation.
fn options_of(scenario: &[Vec<&str>], wait: bool) -> Options {
    let mut options = Options { wait, out: Some(std::env::temp_dir()), ..Options::default() };
    for words in scenario {
        match words[0] {
            "model" => options.model = words[1].parse().unwrap(),
            "concurrency" => options.concurrency = words[1].parse().unwrap(),
            "budget" => options.budget = Some(words[1].parse().unwrap()),
            "initial" => options.initial = Some(words[1].parse().unwrap()),
            "timeout" => options.timeout = Duration::from_secs(words[1].parse().unwrap()),
            "by-ends" => options.by_ends = true,
            "unknown" => options.go_on = true,
            "program" => options.program = Some(table().join("programs").join(words[1])),
            _ => {}
        }
    }
    options
}

/// Runs a scenario up to its verdict, and compares it, and the counts.
fn run(scenario: &[Vec<&str>], wait: bool) -> Fault {
    let mut counts = HashMap::new();
    let got = match Monitor::start(options_of(scenario, wait)) {
        Err(error) => Some(error),
        Ok(monitor) => {
            let ended = steps(&monitor, scenario)?;
            for ((name, outcome), number) in monitor.counts() {
                counts.insert(format!("{name} {outcome}"), number);
            }
            let last = monitor.close().err();
            if last.is_none() && ended.is_some() {
                return Err(format!("an operation met {ended:?}, and the end is legal"));
            }
            last
        }
    };
    let verdict = match got {
        None => None,
        Some(Error::Verdict(verdict)) => Some(*verdict),
        Some(mistake) => return Err(mistake.to_string()),
    };
    if let Some(file) = verdict.as_ref().and_then(|verdict| verdict.history.as_ref()) {
        let _ = std::fs::remove_file(file);
    }
    for words in scenario {
        match words[0] {
            "expect" => expect(words, &verdict)?,
            "says" => {
                let text = verdict.as_ref().map_or(String::new(), Verdict::to_string);
                if !text.contains(&words[1..].join(" ")) {
                    return Err(format!("{}: the verdict is {text}", words.join(" ")));
                }
            }
            "count" => {
                let number = counts.get(&words[1..3].join(" ")).copied().unwrap_or(0);
                if number.to_string() != words[3] {
                    return Err(format!("{}: there are {number}", words.join(" ")));
                }
            }
            _ => {}
        }
    }
    Ok(())
}

fn expect(words: &[&str], verdict: &Option<Verdict>) -> Fault {
    let reply = verdict.as_ref().map_or("legal", |verdict| &verdict.reply);
    let want = match words[1..] {
        [word, key, index] if word != "refused" => format!("{word} key {key} index {index}"),
        _ => words[1].to_string(),
    };
    let more = if words[1] == "refused" { words[2..].join(" ") } else { String::new() };
    if reply.starts_with(&want) && reply.contains(&more) { Ok(()) } else { Err(format!("{}: the verdict is {reply}", words.join(" "))) }
}

/// Does what uses the monitor, up to the verdict that ends the test.
fn steps(monitor: &Monitor, scenario: &[Vec<&str>]) -> Result<Option<Verdict>, String> {
    let mut operations = HashMap::new();
    for words in scenario {
        let done = match words[0] {
            "rejected" => match use_words(monitor, &words[1..]) {
                Err(Error::Mistake(_)) => Ok(()),
                _ => return Err(format!("{}: it was not rejected", words.join(" "))),
            },
            "invoke" => use_words(monitor, &words[2..]).map(|operation| {
                operations.insert(words[1], operation.unwrap());
            }),
            "reset" | "begin" => use_words(monitor, words).map(|_| ()),
            "clients" => clients(monitor, words),
            "parts" => parts(monitor, words),
            "ok" | "fail" | "info" | "value" | "missing" | "values" => end(operations.remove(words[1]).unwrap(), words),
            _ => Ok(()),
        };
        match done {
            Ok(()) => {}
            Err(Error::Verdict(verdict)) => {
                operations.drain().for_each(|(_, operation)| std::mem::forget(operation));
                return Ok(Some(*verdict));
            }
            Err(mistake) => return Err(format!("{}: {mistake}", words.join(" "))),
        }
    }
    operations.drain().for_each(|(_, operation)| std::mem::forget(operation)); // they stay open
    Ok(None)
}

fn use_words<'a>(monitor: &'a Monitor, words: &[&str]) -> Result<Option<Operation<'a>>, Error> {
    let number = |place: usize| words.get(place).map_or(0, |word| word.parse::<i64>().unwrap());
    let key = u32::try_from(number(1)).map_err(|_| Error::Mistake("no such key".into()))?; // as the types of Rust have it
    match words[0] {
        "reset" => monitor.reset().map(|()| None),
        "begin" => monitor.begin(key, number(2)).map(|()| None),
        "read" => monitor.read(key).map(Some),
        "write" => monitor.write(key, number(2)).map(Some),
        "cas" => monitor.cas(key, number(2), number(3)).map(Some),
        "add" => monitor.add(key, number(2)).map(Some),
        "enqueue" => monitor.enqueue(key, number(2)).map(Some),
        "dequeue" => monitor.dequeue(key).map(Some),
        "acquire" => monitor.acquire(key).map(Some),
        "release" => monitor.release(key).map(Some),
        other => panic!("there is no such line: {other}"),
    }
}

fn end(operation: Operation<'_>, words: &[&str]) -> Result<(), Error> {
    let numbers = || words[2..].iter().map(|word| word.parse().unwrap());
    match words[0] {
        "ok" => operation.ok(),
        "fail" => operation.fail(),
        "info" => operation.info(),
        "missing" => operation.value(None),
        "value" => operation.value(numbers().next()),
        _ => operation.values(numbers()),
    }
}

fn option(words: &[&str], name: &str) -> i64 {
    words.iter().position(|word| *word == name).map_or(0, |place| words[place + 1].parse().unwrap())
}

/// Has threads write and read a store, which may lose some writes.
fn clients(monitor: &Monitor, words: &[&str]) -> Result<(), Error> {
    let (operations, keys, loses) = (option(words, "operations"), option(words, "keys"), option(words, "loses"));
    let store = Mutex::new((HashMap::new(), 0));
    let work = |client: i64| -> Result<(), Error> {
        for i in 0..operations {
            let (key, value) = (((client * 7 + i / 2) % keys) as u32, client * operations + i);
            if i % 2 == 0 {
                let write = monitor.write(key, value)?;
                let mut locked = store.lock().unwrap();
                locked.1 += 1;
                if loses == 0 || locked.1 % loses != 0 {
                    locked.0.insert(key, value);
                }
                drop(locked);
                write.ok()?;
            } else {
                let read = monitor.read(key)?;
                let found = store.lock().unwrap().0.get(&key).copied();
                read.value(found)?;
            }
        }
        Ok(())
    };
    let work = &work;
    std::thread::scope(|scope| {
        let all: Vec<_> = (0..option(words, "clients")).map(|client| scope.spawn(move || work(client))).collect();
        all.into_iter().map(|thread| thread.join().unwrap()).fold(Ok(()), Result::and)
    })
}

/// Has one history after another. JEPMON_PARTS="20 500000" makes it ten million operations.
fn parts(monitor: &Monitor, words: &[&str]) -> Result<(), Error> {
    let more = std::env::var("JEPMON_PARTS").unwrap_or_default();
    let more: Vec<i64> = more.split_whitespace().map(|word| word.parse().unwrap()).collect();
    let (parts, operations) = if more.len() == 2 { (more[0], more[1]) } else { (option(words, "parts"), option(words, "operations")) };
    for _ in 0..parts {
        for i in (0..operations).step_by(2) {
            let key = (i / 2 % 64) as u32;
            monitor.write(key, i)?.ok()?;
            monitor.read(key)?.value(Some(i))?;
        }
        monitor.reset()?;
    }
    Ok(())
}
