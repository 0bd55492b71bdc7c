//! Answers a script as `parklot run` does, by upstream's `parking_lot_core`: each number is a thread
//! of this process, which parks and wakes.
//!
//! It knows the lines without deadlines that upstream can do: `lot`, `register`, `retire`,
//! `enter .. untimed`, `one`, `all`, `filter`, `requeue`, `return` and `list`, which is a filter that
//! skips every waiter. Which number is free, runs or is parked it keeps itself, by what the threads
//! report; all else that it prints is what upstream answered.

use parking_lot_core::{
    FilterOp, ParkResult, ParkToken, RequeueOp, UnparkResult, UnparkToken, park, unpark_all,
    unpark_filter, unpark_one, unpark_requeue,
};
use std::io::{self, BufRead, Write};
use std::process::ExitCode;
use std::sync::mpsc::{self, Receiver, Sender};
use std::thread::{self, JoinHandle};
use std::time::Duration;

/// How long a report of a thread may take.
const PATIENCE: Duration = Duration::from_secs(20);

struct Park {
    key: usize,
    valid: bool,
}

/// What a thread reports of its call of `park`.
enum Report {
    /// It is queued, and will sleep.
    Entered,
    Invalid,
    Unparked(usize),
    TimedOut,
}

enum Status {
    Running,
    Parked,
    Unparked(usize),
}

struct Worker {
    orders: Sender<Park>,
    thread: JoinHandle<()>,
    status: Status,
}

struct Lot {
    workers: Vec<Option<Worker>>,
    reports: Receiver<(usize, Report)>,
    reporter: Sender<(usize, Report)>,
}

fn main() -> ExitCode {
    let mut output = io::stdout().lock();
    let mut lot = None;
    for (number, line) in io::stdin().lock().lines().enumerate() {
        let answer = line.map_err(|error| error.to_string()).and_then(|line| {
            let words: Vec<&str> = line.split(' ').collect();
            answer(&mut lot, &words)
        });
        match answer {
            Ok(answer) => writeln!(output, "{answer}").expect("the answer is written"),
            Err(error) => {
                eprintln!("line {}: {error}", number + 1);
                return ExitCode::FAILURE;
            }
        }
    }
    ExitCode::SUCCESS
}

fn answer(lot: &mut Option<Lot>, words: &[&str]) -> Result<String, String> {
    let Some(lot) = lot else {
        let ["lot", max_threads] = words else {
            return Err("bad step".into());
        };
        *lot = Some(Lot::new(number(max_threads)?));
        return Ok("ok".into());
    };
    match *words {
        ["register"] => Ok(lot.register()),
        ["retire", thread] => lot.retire(number(thread)?),
        ["enter", thread, key, valid, _, "untimed"] => {
            let key = number(key)?;
            let valid = valid == "yes";
            lot.enter(number(thread)?, Park { key, valid })
        }
        ["return", thread] => Ok(lot.return_of(number(thread)?)),
        ["one", key, token] => lot.unpark_one(number(key)?, number(token)?),
        ["all", key, token] => lot.unpark_all(number(key)?, number(token)?),
        ["filter", key, decisions, token] => {
            lot.unpark_filter(number(key)?, decisions, number(token)?)
        }
        ["requeue", from, to, op, token] => {
            lot.unpark_requeue(number(from)?, number(to)?, requeue_op(op)?, number(token)?)
        }
        ["list", key] => Ok(list(number(key)?)),
        _ => Err("bad step".into()),
    }
}

fn number(word: &str) -> Result<usize, String> {
    word.parse().map_err(|_| "bad step".into())
}

fn requeue_op(word: &str) -> Result<RequeueOp, String> {
    match word {
        "abort" => Ok(RequeueOp::Abort),
        "one-rest" => Ok(RequeueOp::UnparkOneRequeueRest),
        "all" => Ok(RequeueOp::RequeueAll),
        "one" => Ok(RequeueOp::UnparkOne),
        "requeue-one" => Ok(RequeueOp::RequeueOne),
        _ => Err("bad step".into()),
    }
}

impl Lot {
    fn new(max_threads: usize) -> Lot {
        let (reporter, reports) = mpsc::channel();
        Lot {
            workers: (0..max_threads).map(|_| None).collect(),
            reports,
            reporter,
        }
    }

    fn register(&mut self) -> String {
        let Some(free) = self.workers.iter().position(Option::is_none) else {
            return "full".into();
        };
        let (orders, received) = mpsc::channel();
        let reporter = self.reporter.clone();
        let thread = thread::spawn(move || work(free, &received, &reporter));
        self.workers[free] = Some(Worker {
            orders,
            thread,
            status: Status::Running,
        });
        format!("number {free}")
    }

    /// The thread of this number, if it runs.
    fn running(&mut self, thread: usize) -> Option<&mut Worker> {
        let worker = self.workers.get_mut(thread)?.as_mut()?;
        matches!(worker.status, Status::Running).then_some(worker)
    }

    fn retire(&mut self, thread: usize) -> Result<String, String> {
        if self.running(thread).is_none() {
            return Ok("misfit".into());
        }
        if let Some(worker) = self.workers[thread].take() {
            drop(worker.orders);
            worker.thread.join().map_err(|_| "a thread panicked")?;
        }
        Ok("retired".into())
    }

    fn enter(&mut self, thread: usize, order: Park) -> Result<String, String> {
        let Some(worker) = self.running(thread) else {
            return Ok("misfit".into());
        };
        worker.orders.send(order).map_err(|_| "a thread is gone")?;
        match self.next_report()? {
            (reporter, Report::Entered) if reporter == thread => {
                self.set_status(thread, Status::Parked)?;
                Ok("entered".into())
            }
            (reporter, Report::Invalid) if reporter == thread => Ok("invalid".into()),
            _ => Err("another report than of an entry".into()),
        }
    }

    fn return_of(&mut self, thread: usize) -> String {
        let Some(Some(worker)) = self.workers.get_mut(thread) else {
            return "misfit".into();
        };
        let Status::Unparked(token) = worker.status else {
            return "misfit".into();
        };
        worker.status = Status::Running;
        format!("unparked {token}")
    }

    fn unpark_one(&mut self, key: usize, token: usize) -> Result<String, String> {
        // SAFETY: keys of this process are numbers, and nobody else uses the lot. The callback
        // calls nothing.
        let result = unsafe { unpark_one(key, |_| UnparkToken(token)) };
        self.finish(result)
    }

    fn unpark_all(&mut self, key: usize, token: usize) -> Result<String, String> {
        // SAFETY: as in `unpark_one`.
        let count = unsafe { unpark_all(key, UnparkToken(token)) };
        self.await_unparked(count)?;
        Ok(format!("count {count}"))
    }

    fn unpark_filter(
        &mut self,
        key: usize,
        decisions: &str,
        token: usize,
    ) -> Result<String, String> {
        let mut letters = decisions.chars();
        let decide = |_| match letters.next() {
            Some('U') => FilterOp::Unpark,
            Some('X') => FilterOp::Stop,
            _ => FilterOp::Skip,
        };
        // SAFETY: as in `unpark_one`.
        let result = unsafe { unpark_filter(key, decide, |_| UnparkToken(token)) };
        self.finish(result)
    }

    fn unpark_requeue(
        &mut self,
        from: usize,
        to: usize,
        op: RequeueOp,
        token: usize,
    ) -> Result<String, String> {
        // SAFETY: as in `unpark_one`.
        let result = unsafe { unpark_requeue(from, to, || op, |_, _| UnparkToken(token)) };
        self.finish(result)
    }

    /// Awaits the threads that an unpark woke, and tells its result.
    fn finish(&mut self, result: UnparkResult) -> Result<String, String> {
        self.await_unparked(result.unparked_threads)?;
        Ok(format!(
            "unparked {} requeued {} more {}",
            result.unparked_threads, result.requeued_threads, result.have_more_threads
        ))
    }

    fn await_unparked(&mut self, count: usize) -> Result<(), String> {
        for _ in 0..count {
            let (thread, Report::Unparked(token)) = self.next_report()? else {
                return Err("another report than of a wake-up".into());
            };
            self.set_status(thread, Status::Unparked(token))?;
        }
        Ok(())
    }

    fn next_report(&self) -> Result<(usize, Report), String> {
        self.reports
            .recv_timeout(PATIENCE)
            .map_err(|_| "no thread reports".into())
    }

    fn set_status(&mut self, thread: usize, status: Status) -> Result<(), String> {
        match &mut self.workers[thread] {
            Some(worker) => {
                worker.status = status;
                Ok(())
            }
            None => Err("a report of a free number".into()),
        }
    }
}

/// Tells who waits on the key, in order: a filter looks at each, and unparks nobody.
fn list(key: usize) -> String {
    let mut answer = String::from("waiters");
    let look = |waiter: ParkToken| {
        answer.push_str(&format!(" {}", waiter.0));
        FilterOp::Skip
    };
    // SAFETY: as in `unpark_one`.
    unsafe { unpark_filter(key, look, |_| UnparkToken(0)) };
    answer
}

/// What the thread of a number does: it parks as it is told, with its number for a token, and reports
/// how that ended.
fn work(number: usize, orders: &Receiver<Park>, reporter: &Sender<(usize, Report)>) {
    let report = |report| {
        reporter
            .send((number, report))
            .expect("the lot takes reports as long as the process runs");
    };
    for Park { key, valid } in orders {
        // SAFETY: as in `unpark_one`. `before_sleep` only sends a message.
        let result = unsafe {
            park(
                key,
                || valid,
                || report(Report::Entered),
                |_, _| {},
                ParkToken(number),
                None,
            )
        };
        report(match result {
            ParkResult::Invalid => Report::Invalid,
            ParkResult::Unparked(UnparkToken(token)) => Report::Unparked(token),
            ParkResult::TimedOut => Report::TimedOut,
        });
    }
}
