//! Tasks shared out to as many threads as there are processors.

use std::collections::BTreeMap;
use std::sync::atomic::{AtomicBool, AtomicU64, Ordering};
use std::sync::mpsc::{channel, Receiver, RecvTimeoutError, Sender};
use std::thread;
use std::time::Duration;

use crate::progress::Progress;
use crate::signals;
use crate::survey::Survey;
use crate::Ended;

const TICK: Duration = Duration::from_millis(100);

/// How many schedules are done in all threads, and whether they should stop.
#[derive(Default)]
pub struct Counter {
    done: AtomicU64,
    stopped: AtomicBool,
}

impl Counter {
    pub fn add_one(&self) {
        self.done.fetch_add(1, Ordering::Relaxed);
    }

    pub fn is_stopped(&self) -> bool {
        self.stopped.load(Ordering::Relaxed)
    }
}

type Surveyed = Result<Survey, Ended>;

/// The surveys of tasks 0, 1 and so on, one after the other.
pub fn shared_out(
    tasks: u64,
    progress: Progress,
    work: impl Fn(u64, &Counter) -> Surveyed + Sync,
) -> Surveyed {
    let counter = &Counter::default();
    let next = &AtomicU64::new(0);
    let work = &work;
    let (sender, receiver) = channel();
    let threads = thread::available_parallelism().map_or(1, usize::from);
    thread::scope(|scope| {
        for _ in 0..threads {
            let sender: Sender<(u64, Surveyed)> = sender.clone();
            scope.spawn(move || loop {
                let task = next.fetch_add(1, Ordering::Relaxed);
                if task >= tasks || sender.send((task, work(task, counter))).is_err() {
                    break;
                }
            });
        }
        drop(sender);
        let all = collected(receiver, progress, counter);
        counter.stopped.store(true, Ordering::Relaxed);
        all
    })
}

/// Waits for every task, or for one that failed. After a signal each ends with
/// what it has.
fn collected(
    receiver: Receiver<(u64, Surveyed)>,
    mut progress: Progress,
    counter: &Counter,
) -> Surveyed {
    let mut surveys = BTreeMap::new();
    signals::watch(&[signals::INT, signals::TERM]);
    loop {
        if signals::came() {
            counter.stopped.store(true, Ordering::Relaxed);
        }
        match receiver.recv_timeout(TICK) {
            Ok((task, survey)) => drop(surveys.insert(task, survey?)),
            Err(RecvTimeoutError::Timeout) => progress.tell(counter.done.load(Ordering::Relaxed)),
            Err(RecvTimeoutError::Disconnected) => break,
        }
    }
    progress.done();
    let mut all = Survey::default();
    for survey in surveys.into_values() {
        all.append(survey);
    }
    all.stopped_of = counter.is_stopped().then(|| progress.of());
    Ok(all)
}
