//! Measures operations, each of two events: a write or a read of a key of the thread's own. `bench true 5 100000`: waits, threads, operations.
use jepmon::{Error, Monitor, Options};
use std::time::Instant;

fn measure(monitor: &Monitor, client: u32, operations: u32) -> Result<(), Error> {
    for i in 0..operations {
        let key = client * 64 + i / 2 % 64;
        if i % 2 == 0 {
            monitor.write(key, i64::from(i))?.ok()?;
        } else {
            monitor.read(key)?.value(Some(i64::from(i) - 1))?;
        }
    }
    Ok(())
}

fn main() {
    let words: Vec<String> = std::env::args().collect();
    let wait = words[1] == "true";
    let clients: u32 = words[2].parse().unwrap();
    let operations: u32 = words[3].parse().unwrap();
    let monitor = Monitor::start(Options { wait, ..Options::default() }).unwrap();
    let mut most = 0.0_f64;
    for _ in 0..3 {
        let begun = Instant::now();
        std::thread::scope(|scope| {
            for client in 0..clients {
                let monitor = &monitor;
                scope.spawn(move || measure(monitor, client, operations / clients).unwrap());
            }
        });
        monitor.reset().unwrap();
        most = most.max(f64::from(2 * operations) / begun.elapsed().as_secs_f64());
    }
    monitor.close().unwrap();
    println!("{most:.0} events a second");
}
