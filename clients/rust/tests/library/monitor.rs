use jepmon::{Error, Model, Monitor, Options, Status};

fn options() -> Options {
    Options { out: Some(std::env::temp_dir()), ..Options::default() }
}

#[test]
fn early_return_is_an_unknown_outcome() {
    fn put(monitor: &Monitor) -> Result<(), Box<dyn std::error::Error>> {
        let write = monitor.write(7, 1)?;
        Err("as a timeout")?;
        Ok(write.ok()?)
    }
    let monitor = Monitor::start(options()).unwrap();
    assert!(put(&monitor).is_err());
    monitor.read(7).unwrap().value(Some(1)).unwrap();
    assert_eq!(monitor.counts(), [(("read", "ok"), 1), (("write", "info"), 1)].into());
    monitor.close().unwrap();
}

#[test]
fn panic_is_an_unknown_outcome() {
    let monitor = Monitor::start(Options { concurrency: 1, ..options() }).unwrap();
    let caught = std::panic::catch_unwind(std::panic::AssertUnwindSafe(|| {
        let _write = monitor.write(7, 1).unwrap();
        std::panic::resume_unwind(Box::new(()));
    }));
    assert!(caught.is_err());
    monitor.read(7).unwrap().value(None).unwrap();
    assert_eq!(monitor.counts()[&("write", "info")], 1);
    monitor.close().unwrap();
}

#[test]
fn verdict_stops_the_test() {
    let monitor = Monitor::start(Options { wait: true, ..options() }).unwrap();
    monitor.write(7, 1).unwrap().ok().unwrap();
    let error = monitor.read(7).unwrap().value(Some(2)).unwrap_err();
    let verdict = error.verdict().unwrap();
    assert_eq!((verdict.status, verdict.key, verdict.index), (Status::Illegal, 7, 5));
    assert!(verdict.tail.last().unwrap().starts_with("5 {:type :ok"), "{error}");
    assert_eq!(monitor.write(7, 3).err(), Some(error));
    match monitor.close() {
        Err(Error::Verdict(verdict)) => {
            let file = verdict.history.unwrap();
            assert_eq!(std::fs::read_to_string(&file).unwrap().lines().count(), 6);
            std::fs::remove_file(file).unwrap();
        }
        other => panic!("{other:?}"),
    }
}

#[test]
#[should_panic(expected = "illegal key 7 index 5")]
fn forgotten_close() {
    let monitor = Monitor::start(options()).unwrap();
    monitor.write(7, 1).unwrap().ok().unwrap();
    let _ = monitor.read(7).unwrap().value(Some(2));
}

#[test]
fn operations_of_a_lock() {
    let monitor = Monitor::start(Options { model: Model::Mutex, ..options() }).unwrap();
    monitor.acquire(1).unwrap().ok().unwrap();
    monitor.acquire(1).unwrap().fail().unwrap();
    monitor.release(1).unwrap().ok().unwrap();
    assert!(matches!(monitor.read(1).err(), Some(Error::Mistake(_))));
    monitor.close().unwrap();
}
