//! The rows of `lot_bench`, measured of upstream's `parking_lot_core` and of `parking_lot` on it.
//!
//! `upstream_bench ROW` measures one row and prints its name and the nanoseconds per operation;
//! without a word it prints the rows' names. Each row does what the row of that name does there:
//! the same calls, counts, threads and medians.

use parking_lot_core::word_lock::WordLock;
use parking_lot_core::{
    DEFAULT_PARK_TOKEN, DEFAULT_UNPARK_TOKEN, ParkResult, RequeueOp, UnparkResult, UnparkToken,
    park, unpark_all, unpark_one, unpark_requeue,
};
use std::cell::UnsafeCell;
use std::hint;
use std::process::ExitCode;
use std::sync::atomic::Ordering::SeqCst;
use std::sync::atomic::{AtomicBool, AtomicU8, AtomicU64};
use std::sync::{Arc, Barrier, Condvar, Mutex, RwLock};
use std::thread;
use std::time::{Duration, Instant};

/// Keys with a bucket of their own each, in a table of any size.
const KEYS: [usize; 4] = [1, 2, 3, 4];

const TURNS: usize = 10_000_000;

type Row = (&'static str, fn() -> Option<f64>);

const ROWS: [Row; 58] = [
    ("unpark_one_nobody", unpark_one_nobody),
    ("unpark_one_two_keys", || {
        unpark_one_on_each(&KEYS[..2], 3_000_000)
    }),
    ("unpark_one_four_keys", || unpark_one_on_each(&KEYS, 3_000_000)),
    ("unpark_one_one_key", || {
        unpark_one_on_each(&[KEYS[0]; 4], 300_000)
    }),
    ("unpark_one_one_key_sixteen", || {
        unpark_one_on_each(&[KEYS[0]; 16], 300_000)
    }),
    ("park_invalid", park_invalid),
    ("park_invalid_four_keys", park_invalid_four_keys),
    ("park_past_deadline", park_past_deadline),
    ("park_past_deadline_four", park_past_deadline_four),
    ("turns_strict", || median_of(5, turns_strict)),
    ("turns_by_word", || median_of(5, turns_by_word)),
    ("unpark_all_call", || unpark_all_of_them(false)),
    ("unpark_all_awake", || unpark_all_of_them(true)),
    ("requeue_ten", || requeue_all_of(10)),
    ("requeue_all", || requeue_all_of(WAITERS)),
    ("requeue_thousand", || requeue_all_of(1_000)),
    ("mutex_alone", || mutex(1)),
    ("mutex_two", || mutex(2)),
    ("mutex_four", || mutex(4)),
    ("mutex_sixteen", || mutex(16)),
    ("fair_alone", || fair_mutex(1)),
    ("fair_two", || fair_mutex(2)),
    ("fair_four", || fair_mutex(4)),
    ("fair_notify_all", fair_notify_all),
    ("word_lock_alone", || word_lock(1, SHORT)),
    ("word_lock_two", || word_lock(2, SHORT)),
    ("word_lock_four", || word_lock(4, SHORT)),
    ("word_lock_sixteen", || word_lock(16, SHORT)),
    ("word_lock_two_longer", || word_lock(2, LONGER)),
    ("word_lock_four_longer", || word_lock(4, LONGER)),
    ("word_lock_sixteen_longer", || word_lock(16, LONGER)),
    ("std_mutex_alone", || std_mutex(1, SHORT)),
    ("std_mutex_two", || std_mutex(2, SHORT)),
    ("std_mutex_four", || std_mutex(4, SHORT)),
    ("std_mutex_sixteen", || std_mutex(16, SHORT)),
    ("std_mutex_two_longer", || std_mutex(2, LONGER)),
    ("std_mutex_four_longer", || std_mutex(4, LONGER)),
    ("sync_mutex_alone", || sync_mutex(1, SHORT)),
    ("sync_mutex_two", || sync_mutex(2, SHORT)),
    ("sync_mutex_four", || sync_mutex(4, SHORT)),
    ("sync_mutex_sixteen", || sync_mutex(16, SHORT)),
    ("sync_mutex_two_longer", || sync_mutex(2, LONGER)),
    ("sync_mutex_four_longer", || sync_mutex(4, LONGER)),
    ("sync_read_alone", || sync_rw_lock(1, READ)),
    ("sync_read_two", || sync_rw_lock(2, READ)),
    ("sync_read_four", || sync_rw_lock(4, READ)),
    ("sync_write_alone", || sync_rw_lock(1, SHORT)),
    ("sync_mostly_read_four", || sync_rw_lock(4, MOSTLY_READ)),
    ("std_read_four", || std_rw_lock(4, READ)),
    ("std_mostly_read_four", || std_rw_lock(4, MOSTLY_READ)),
    ("sync_once_done", sync_once_done),
    ("sync_condvar_turns", || {
        median_of(5, || sync_condvar_turns(Notify::Unlocked))
    }),
    ("sync_condvar_turns_held", || {
        median_of(5, || sync_condvar_turns(Notify::Held))
    }),
    ("std_condvar_turns", || median_of(5, std_condvar_turns)),
    ("sync_queue_two", || sync_queue(2)),
    ("sync_queue_eight", || sync_queue(8)),
    ("many_keys", many_keys),
    ("thousand_threads", thousand_threads),
];

fn main() -> ExitCode {
    let words: Vec<String> = std::env::args().skip(1).collect();
    match words.as_slice() {
        [] => {
            for (name, _) in ROWS {
                println!("{name}");
            }
            ExitCode::SUCCESS
        }
        [word] => match ROWS.iter().find(|(name, _)| name == word) {
            Some((name, measure)) => print_cost(name, measure()),
            None => usage(),
        },
        _ => usage(),
    }
}

fn usage() -> ExitCode {
    eprintln!("usage: upstream_bench [ROW]");
    ExitCode::from(2)
}

fn print_cost(name: &str, cost: Option<f64>) -> ExitCode {
    match cost {
        Some(cost) => {
            println!("{name} {cost:.2}");
            ExitCode::SUCCESS
        }
        None => {
            eprintln!("{name} failed");
            ExitCode::FAILURE
        }
    }
}

/// The median of so many runs, after one more that is not counted.
fn median_of(runs: usize, run: impl Fn() -> Option<f64>) -> Option<f64> {
    run()?;
    let mut costs = Vec::new();
    for _ in 0..runs {
        costs.push(run()?);
    }
    Some(median(costs))
}

fn median(mut costs: Vec<f64>) -> f64 {
    costs.sort_by(f64::total_cmp);
    costs[costs.len() / 2]
}

fn since(start: Instant, operations: u64) -> f64 {
    start.elapsed().as_nanos() as f64 / operations as f64
}

/// Waits by turns until the word has this value.
fn comes_to(word: &AtomicU64, value: u64) -> bool {
    for _ in 0..TURNS {
        if word.load(SeqCst) == value {
            return true;
        }
        thread::yield_now();
    }
    false
}

// One thread.

const CALLS_ALONE: u64 = 1_000_000;

fn unpark_one_nobody() -> Option<f64> {
    median_of(7, || {
        let start = Instant::now();
        let unparked = unparked_in_vain(KEYS[0], CALLS_ALONE);
        (unparked == 0).then(|| since(start, CALLS_ALONE))
    })
}

fn unparked_in_vain(key: usize, calls: u64) -> usize {
    let mut unparked = 0;
    for _ in 0..calls {
        unparked += unpark(key);
    }
    unparked
}

fn unpark(key: usize) -> usize {
    unsafe { unpark_one(key, |_| DEFAULT_UNPARK_TOKEN) }.unparked_threads
}

fn park_invalid() -> Option<f64> {
    let is_valid = AtomicBool::new(hint::black_box(false));
    median_of(7, || cost_of_parks(&is_valid, None, ParkResult::Invalid))
}

fn park_past_deadline() -> Option<f64> {
    let is_valid = AtomicBool::new(hint::black_box(true));
    let past = Instant::now();
    median_of(7, || {
        cost_of_parks(&is_valid, Some(past), ParkResult::TimedOut)
    })
}

/// Four threads, each with a key of its own.
fn park_invalid_four_keys() -> Option<f64> {
    let is_valid = AtomicBool::new(hint::black_box(false));
    park_on_each(&is_valid, None, ParkResult::Invalid)
}

fn park_past_deadline_four() -> Option<f64> {
    let is_valid = AtomicBool::new(hint::black_box(true));
    park_on_each(&is_valid, Some(Instant::now()), ParkResult::TimedOut)
}

fn park_on_each(
    is_valid: &AtomicBool,
    timeout: Option<Instant>,
    expected: ParkResult,
) -> Option<f64> {
    median_of(7, || {
        let spent = together(KEYS.len(), |thread| {
            parks_as_expected(KEYS[thread], is_valid, timeout, expected)
        })?;
        Some(spent.as_nanos() as f64 / CALLS_ALONE as f64)
    })
}

fn cost_of_parks(
    is_valid: &AtomicBool,
    timeout: Option<Instant>,
    expected: ParkResult,
) -> Option<f64> {
    let start = Instant::now();
    let done = parks_as_expected(KEYS[0], is_valid, timeout, expected);
    let cost = since(start, CALLS_ALONE);
    done.then_some(cost)
}

#[inline]
fn parks_as_expected(
    key: usize,
    is_valid: &AtomicBool,
    timeout: Option<Instant>,
    expected: ParkResult,
) -> bool {
    let mut ended = 0;
    for _ in 0..CALLS_ALONE {
        ended += u64::from(park_with(key, || is_valid.load(SeqCst), || (), timeout) == expected);
    }
    ended == CALLS_ALONE
}

fn park_with(
    key: usize,
    validate: impl FnOnce() -> bool,
    before_sleep: impl FnOnce(),
    timeout: Option<Instant>,
) -> ParkResult {
    unsafe {
        park(
            key,
            validate,
            before_sleep,
            |_, _| (),
            DEFAULT_PARK_TOKEN,
            timeout,
        )
    }
}

// Threads that begin together.

/// Threads that are just started may share a processor while another one is idle. After so long
/// the system has spread them.
const UNTIL_SPREAD: Duration = Duration::from_millis(40);

fn run_for(duration: Duration) {
    let start = Instant::now();
    while start.elapsed() < duration {}
}

/// The time from the first start to the last end of so many threads that begin together.
fn together(threads: usize, work: impl Fn(usize) -> bool + Sync) -> Option<Duration> {
    let barrier = Barrier::new(threads);
    let spans: Vec<(Instant, Instant, bool)> = thread::scope(|scope| {
        let (barrier, work) = (&barrier, &work);
        let handles: Vec<_> = (0..threads)
            .map(|thread| {
                scope.spawn(move || {
                    run_for(UNTIL_SPREAD);
                    barrier.wait();
                    let start = Instant::now();
                    let done = work(thread);
                    (start, Instant::now(), done)
                })
            })
            .collect();
        handles.into_iter().map(|h| h.join().unwrap()).collect()
    });
    let start = spans.iter().map(|span| span.0).min()?;
    let end = spans.iter().map(|span| span.1).max()?;
    spans.iter().all(|span| span.2).then(|| end - start)
}

/// A thread for each of the keys.
fn unpark_one_on_each(keys: &[usize], calls: u64) -> Option<f64> {
    median_of(7, || {
        let spent = together(keys.len(), |thread| {
            unparked_in_vain(keys[thread], calls) == 0
        })?;
        Some(spent.as_nanos() as f64 / calls as f64)
    })
}

// Two threads that hand a turn to each other.

const STRICT_ROUNDS: u64 = 1_000;
const WORD_ROUNDS: u64 = 5_000;

fn turns_strict() -> Option<f64> {
    let gave_up = AtomicBool::new(false);
    let parks = |key| park_with(key, || !gave_up.load(SeqCst), || (), None) != ParkResult::Invalid;
    let unparks = |key| unpark_surely(key, &gave_up);
    let start = Instant::now();
    let (led, followed) = both(
        || (0..STRICT_ROUNDS).all(|_| unparks(KEYS[1]) && parks(KEYS[0])),
        || (0..STRICT_ROUNDS).all(|_| parks(KEYS[1]) && unparks(KEYS[0])),
    );
    (led && followed).then(|| since(start, STRICT_ROUNDS))
}

fn unpark_surely(key: usize, gave_up: &AtomicBool) -> bool {
    for _ in 0..TURNS {
        if unpark(key) == 1 {
            return true;
        }
        hint::spin_loop();
    }
    gave_up.store(true, SeqCst);
    unsafe { unpark_all(key, DEFAULT_UNPARK_TOKEN) };
    false
}

/// Calls the first in a new thread and the second in this one.
fn both(first: impl FnOnce() -> bool + Send, second: impl FnOnce() -> bool) -> (bool, bool) {
    thread::scope(|scope| {
        let first = scope.spawn(first);
        let second = second();
        (first.join().unwrap(), second)
    })
}

fn turns_by_word() -> Option<f64> {
    let turn = AtomicU64::new(0);
    let start = Instant::now();
    let (one, other) = both(|| takes_turns(&turn, 0), || takes_turns(&turn, 1));
    (one && other).then(|| since(start, WORD_ROUNDS))
}

fn takes_turns(turn: &AtomicU64, side: u64) -> bool {
    const NOBODY: u64 = 2;
    let other = 1 - side;
    (0..WORD_ROUNDS).all(|_| {
        let has_turn = awaits_turn(turn, side);
        turn.store(if has_turn { other } else { NOBODY }, SeqCst);
        unpark(KEYS[other as usize]);
        has_turn
    })
}

fn awaits_turn(turn: &AtomicU64, side: u64) -> bool {
    let other = 1 - side;
    for _ in 0..TURNS {
        let whose = turn.load(SeqCst);
        if whose != other {
            return whose == side;
        }
        park_with(
            KEYS[side as usize],
            || turn.load(SeqCst) == other,
            || (),
            None,
        );
    }
    false
}

// Threads that wait on one key.

const WAITERS: u64 = 100;

struct Board {
    waiters: u64,
    parked: AtomicU64,
    awake: AtomicU64,
    is_over: AtomicBool,
}

/// Starts so many waiters, each of which parks so often, and answers what `lead` measured.
fn gather(
    waiters: u64,
    parks: usize,
    lead: impl FnOnce(&Board) -> Option<f64> + Send,
) -> Option<f64> {
    let board = Board {
        waiters,
        parked: AtomicU64::new(0),
        awake: AtomicU64::new(0),
        is_over: AtomicBool::new(false),
    };
    thread::scope(|scope| {
        let waiters: Vec<_> = (0..waiters)
            .map(|_| scope.spawn(|| (0..parks).all(|_| waits_once(&board))))
            .collect();
        let cost = lead(&board);
        board.is_over.store(true, SeqCst);
        for key in [KEYS[0], KEYS[1]] {
            unsafe { unpark_all(key, DEFAULT_UNPARK_TOKEN) };
        }
        let mut waited = true;
        for waiter in waiters {
            waited &= waiter.join().unwrap();
        }
        cost.filter(|_| waited)
    })
}

fn waits_once(board: &Board) -> bool {
    let comes = || {
        board.parked.fetch_add(1, SeqCst);
    };
    let result = park_with(KEYS[0], || !board.is_over.load(SeqCst), comes, None);
    board.awake.fetch_add(1, SeqCst);
    matches!(result, ParkResult::Unparked(_))
}

fn unpark_all_of_them(until_awake: bool) -> Option<f64> {
    const WAKES: usize = 15;
    gather(WAITERS, WAKES, |board| {
        let mut costs = Vec::new();
        for _ in 0..WAKES {
            costs.push(cost_of_wake(board, until_awake)?);
        }
        Some(median(costs))
    })
}

fn cost_of_wake(board: &Board, until_awake: bool) -> Option<f64> {
    await_sleepers(board)?;
    board.parked.store(0, SeqCst);
    board.awake.store(0, SeqCst);
    let start = Instant::now();
    let unparked = unsafe { unpark_all(KEYS[0], DEFAULT_UNPARK_TOKEN) };
    let answered = since(start, 1);
    if unparked as u64 != board.waiters || !comes_to(&board.awake, board.waiters) {
        return None;
    }
    Some(if until_awake {
        since(start, 1)
    } else {
        answered
    })
}

/// Waits until all have come, and then some time.
fn await_sleepers(board: &Board) -> Option<()> {
    if !comes_to(&board.parked, board.waiters) {
        return None;
    }
    thread::sleep(Duration::from_millis(20));
    Some(())
}

fn requeue_all_of(waiters: u64) -> Option<f64> {
    const MOVES: u64 = 1_000;
    gather(waiters, 1, |board| {
        await_sleepers(board)?;
        let mut costs = Vec::new();
        for _ in 0..7 {
            let start = Instant::now();
            let mut moved = 0;
            for _ in 0..MOVES {
                moved += moved_to(KEYS[0], KEYS[1]) + moved_to(KEYS[1], KEYS[0]);
            }
            costs.push(since(start, 2 * MOVES));
            if moved as u64 != 2 * MOVES * waiters {
                return None;
            }
        }
        Some(median(costs))
    })
}

fn moved_to(from: usize, to: usize) -> usize {
    let validate = || RequeueOp::RequeueAll;
    let result = unsafe { unpark_requeue(from, to, validate, |_, _| DEFAULT_UNPARK_TOKEN) };
    result.requeued_threads
}

// A mutex of one byte.

const FREE: u8 = 0;
const LOCKED: u8 = 1;
const PARKED: u8 = 2;
const CONTENDED: u8 = 3;

const SPINS: u32 = 3;
const YIELDS: u32 = 7;

/// Who is unparked with it has the mutex.
const HANDED_OVER: UnparkToken = UnparkToken(1);

struct ByteMutex {
    state: AtomicU8,
}

impl ByteMutex {
    #[inline]
    fn lock(&self) -> bool {
        self.exchange(FREE, LOCKED).is_ok() || self.lock_slowly()
    }

    #[inline]
    fn unlock(&self) {
        if self.exchange(LOCKED, FREE).is_err() {
            self.unlock_slowly();
        }
    }

    #[inline]
    fn exchange(&self, current: u8, new: u8) -> Result<u8, u8> {
        self.state.compare_exchange(current, new, SeqCst, SeqCst)
    }

    #[cold]
    fn lock_slowly(&self) -> bool {
        let mut spun = 0;
        for _ in 0..TURNS {
            let state = self.state.load(SeqCst);
            if state == FREE || state == PARKED {
                if self.exchange(state, state | LOCKED).is_ok() {
                    return true;
                }
            } else if state == LOCKED && spun < SPINS + YIELDS {
                spun += 1;
                spin(spun);
            } else if state == CONTENDED || self.exchange(LOCKED, CONTENDED).is_ok() {
                let is_contended = || self.state.load(SeqCst) == CONTENDED;
                let parked = park_with(KEYS[0], is_contended, || (), None);
                if parked == ParkResult::Unparked(HANDED_OVER) {
                    return true;
                }
                spun = 0;
            }
        }
        false
    }

    #[cold]
    fn unlock_slowly(&self) {
        let callback = |answer: UnparkResult| {
            let state = if answer.have_more_threads {
                PARKED
            } else {
                FREE
            };
            self.state.store(state, SeqCst);
            DEFAULT_UNPARK_TOKEN
        };
        unsafe { unpark_one(KEYS[0], callback) };
    }

    /// Hands the mutex to the first that waits, if any does.
    #[inline]
    fn unlock_fair(&self) {
        if self.exchange(LOCKED, FREE).is_err() {
            self.unlock_fair_slowly();
        }
    }

    #[cold]
    fn unlock_fair_slowly(&self) {
        let callback = |answer: UnparkResult| {
            if answer.unparked_threads == 0 {
                self.state.store(FREE, SeqCst);
                return DEFAULT_UNPARK_TOKEN;
            }
            if !answer.have_more_threads {
                self.state.store(LOCKED, SeqCst);
            }
            HANDED_OVER
        };
        unsafe { unpark_one(KEYS[0], callback) };
    }

    /// False says that it is not locked.
    fn says_that_threads_wait(&self) -> bool {
        loop {
            let state = self.state.load(SeqCst);
            if state == FREE || state == PARKED {
                return false;
            }
            if self.exchange(state, CONTENDED).is_ok() {
                return true;
            }
        }
    }
}

fn spin(spun: u32) {
    if spun > SPINS {
        thread::yield_now();
        return;
    }
    for _ in 0..(2 << spun) / 2 {
        hint::spin_loop();
    }
}

/// So many threads lock and unlock so often each a mutex whose unlock lets whoever runs have it next.
fn mutex(threads: usize) -> Option<f64> {
    const PAIRS: u64 = 300_000;
    let all_pairs = PAIRS * threads as u64;
    let count = AtomicU64::new(0);
    let mutex = ByteMutex {
        state: AtomicU8::new(FREE),
    };
    together(threads, |_| {
        (0..PAIRS).all(|_| {
            let locked = mutex.lock();
            count.store(count.load(SeqCst) + 1, SeqCst);
            mutex.unlock();
            locked
        })
    })?;
    if count.load(SeqCst) != all_pairs {
        return None;
    }
    median_of(7, || {
        let spent = together(threads, |_| {
            let mut locked = 0;
            for _ in 0..PAIRS {
                locked += u64::from(mutex.lock());
                mutex.unlock();
            }
            locked == PAIRS
        })?;
        Some(spent.as_nanos() as f64 / all_pairs as f64)
    })
}

/// A mutex that is handed over, with a condition variable whose sleepers stand on another key.
/// Those who have the mutex count how many have come to sleep, and how many were notified.
struct Room {
    mutex: ByteMutex,
    sleeping: AtomicU64,
    awake: AtomicU64,
    is_over: AtomicBool,
}

impl Room {
    /// Sleeps once. False says that it did not.
    fn sleep(&self) -> bool {
        if !self.mutex.lock() {
            return false;
        }
        let sleeps = !self.is_over.load(SeqCst);
        if sleeps {
            self.sleeping.fetch_add(1, SeqCst);
            let notified = park_with(KEYS[1], || true, || self.mutex.unlock_fair(), None);
            if notified != ParkResult::Unparked(HANDED_OVER) && !self.mutex.lock() {
                return false;
            }
            self.awake.fetch_add(1, SeqCst);
        }
        self.mutex.unlock_fair();
        sleeps
    }

    /// Notifies all who sleep, and tells how many queue for the mutex now. It is held.
    fn notify_all(&self) -> usize {
        let validate = || {
            if self.mutex.says_that_threads_wait() {
                RequeueOp::RequeueAll
            } else {
                RequeueOp::UnparkOneRequeueRest
            }
        };
        let callback = |_, _| DEFAULT_UNPARK_TOKEN;
        unsafe { unpark_requeue(KEYS[1], KEYS[0], validate, callback) }.requeued_threads
    }

    /// Notifies all once they have come and sleep. Who has the mutex knows that they have left it.
    fn cost_of_notify(&self) -> Option<f64> {
        if !comes_to(&self.sleeping, WAITERS) || !self.mutex.lock() {
            return None;
        }
        thread::sleep(Duration::from_millis(20));
        self.sleeping.store(0, SeqCst);
        self.awake.store(0, SeqCst);
        let start = Instant::now();
        let notified = self.notify_all();
        self.mutex.unlock_fair();
        if notified as u64 != WAITERS || !comes_to(&self.awake, WAITERS) {
            return None;
        }
        Some(since(start, 1))
    }
}

fn fair_notify_all() -> Option<f64> {
    const NOTIFIES: usize = 15;
    let room = Room {
        mutex: ByteMutex {
            state: AtomicU8::new(FREE),
        },
        sleeping: AtomicU64::new(0),
        awake: AtomicU64::new(0),
        is_over: AtomicBool::new(false),
    };
    thread::scope(|scope| {
        let room = &room;
        let sleepers: Vec<_> = (0..WAITERS)
            .map(|_| scope.spawn(move || (0..NOTIFIES).all(|_| room.sleep())))
            .collect();
        let costs: Option<Vec<f64>> = (0..NOTIFIES).map(|_| room.cost_of_notify()).collect();
        if room.mutex.lock() {
            room.is_over.store(true, SeqCst);
            room.notify_all();
            room.mutex.unlock_fair();
        }
        let mut slept = true;
        for sleeper in sleepers {
            slept &= sleeper.join().unwrap();
        }
        costs.filter(|_| slept).map(median)
    })
}

// Locks around a tally.

/// What a thread does again and again: so often it counts, and mixes a number so many times
/// meanwhile, and then it reads so often what was counted. Both make a hundred.
#[derive(Copy, Clone)]
struct Section {
    counts: u32,
    turns: u32,
    reads: u32,
}

const SHORT: Section = Section {
    counts: 100,
    turns: 0,
    reads: 0,
};

const LONGER: Section = Section { turns: 50, ..SHORT };

const READ: Section = Section {
    counts: 0,
    turns: 0,
    reads: 100,
};

const MOSTLY_READ: Section = Section {
    counts: 1,
    turns: 0,
    reads: 99,
};

const MULTIPLIER: u64 = 0x9E37_79B9_7F4A_7C15;

/// What the lock is around. It is as large as a bucket of a lot.
struct Tally {
    count: u64,
    mixed: u64,
    _others: [u64; 3],
}

impl Tally {
    fn new() -> Tally {
        Tally {
            count: 0,
            mixed: 1,
            _others: [0; 3],
        }
    }

    #[inline]
    fn count_one(&mut self, turns: u32) {
        self.count = self.count.wrapping_add(1);
        for _ in 0..turns {
            self.mixed = (self.mixed ^ (self.mixed >> 32)).wrapping_mul(MULTIPLIER);
        }
    }
}

trait TallyLock: Sync {
    fn count_one(&self, turns: u32);
    fn count(&self) -> u64;
}

struct Locked {
    lock: WordLock,
    tally: UnsafeCell<Tally>,
}

unsafe impl Sync for Locked {}

impl TallyLock for Locked {
    #[inline]
    fn count_one(&self, turns: u32) {
        self.lock.lock();
        unsafe {
            (*self.tally.get()).count_one(turns);
            self.lock.unlock();
        }
    }

    #[inline]
    fn count(&self) -> u64 {
        self.lock.lock();
        unsafe {
            let count = (*self.tally.get()).count;
            self.lock.unlock();
            count
        }
    }
}

impl TallyLock for Mutex<Tally> {
    #[inline]
    fn count_one(&self, turns: u32) {
        self.lock().unwrap().count_one(turns);
    }

    #[inline]
    fn count(&self) -> u64 {
        self.lock().unwrap().count
    }
}

impl TallyLock for RwLock<Tally> {
    #[inline]
    fn count_one(&self, turns: u32) {
        self.write().unwrap().count_one(turns);
    }

    #[inline]
    fn count(&self) -> u64 {
        self.read().unwrap().count
    }
}

impl TallyLock for parking_lot::Mutex<Tally> {
    #[inline]
    fn count_one(&self, turns: u32) {
        self.lock().count_one(turns);
    }

    #[inline]
    fn count(&self) -> u64 {
        self.lock().count
    }
}

impl TallyLock for parking_lot::FairMutex<Tally> {
    #[inline]
    fn count_one(&self, turns: u32) {
        self.lock().count_one(turns);
    }

    #[inline]
    fn count(&self) -> u64 {
        self.lock().count
    }
}

impl TallyLock for parking_lot::RwLock<Tally> {
    #[inline]
    fn count_one(&self, turns: u32) {
        self.write().count_one(turns);
    }

    #[inline]
    fn count(&self) -> u64 {
        self.read().count
    }
}

const HUNDREDS: u64 = 3_000;

fn word_lock(threads: usize, section: Section) -> Option<f64> {
    let lock = Locked {
        lock: WordLock::new(),
        tally: UnsafeCell::new(Tally::new()),
    };
    cost_of_lock(&lock, threads, section, HUNDREDS)
}

fn std_mutex(threads: usize, section: Section) -> Option<f64> {
    cost_of_lock(&Mutex::new(Tally::new()), threads, section, HUNDREDS)
}

fn std_rw_lock(threads: usize, section: Section) -> Option<f64> {
    let lock = RwLock::new(Tally::new());
    cost_of_lock(&lock, threads, section, HUNDREDS)
}

fn sync_mutex(threads: usize, section: Section) -> Option<f64> {
    let lock = parking_lot::Mutex::new(Tally::new());
    cost_of_lock(&lock, threads, section, HUNDREDS)
}

/// One whose unlock hands it to the first that waits.
fn fair_mutex(threads: usize) -> Option<f64> {
    const FEWER: u64 = 200;
    let lock = parking_lot::FairMutex::new(Tally::new());
    cost_of_lock(&lock, threads, SHORT, FEWER)
}

fn sync_rw_lock(threads: usize, section: Section) -> Option<f64> {
    let lock = parking_lot::RwLock::new(Tally::new());
    cost_of_lock(&lock, threads, section, HUNDREDS)
}

/// Each of so many threads locks and unlocks so many hundred times.
fn cost_of_lock(
    lock: &impl TallyLock,
    threads: usize,
    section: Section,
    hundreds: u64,
) -> Option<f64> {
    const RUNS: usize = 7;
    let pairs = 100 * hundreds * threads as u64;
    let cost = median_of(RUNS, || {
        let spent = together(threads, |_| {
            (0..hundreds).all(|_| hundred_pairs(lock, section))
        })?;
        Some(spent.as_nanos() as f64 / pairs as f64)
    });
    let counted = hundreds * u64::from(section.counts) * threads as u64 * (RUNS as u64 + 1);
    cost.filter(|_| lock.count() == counted)
}

/// False says that it read less than before.
fn hundred_pairs(lock: &impl TallyLock, section: Section) -> bool {
    for _ in 0..section.counts {
        lock.count_one(section.turns);
    }
    let mut last = 0;
    let mut is_ordered = true;
    for _ in 0..section.reads {
        let count = lock.count();
        is_ordered &= last <= count;
        last = count;
    }
    is_ordered
}

// What is done once, and condition variables.

fn sync_once_done() -> Option<f64> {
    let once = parking_lot::Once::new();
    once.call_once(|| ());
    median_of(7, || {
        let start = Instant::now();
        let mut called = 0;
        for _ in 0..CALLS_ALONE {
            once.call_once(|| called += 1);
        }
        (called == 0).then(|| since(start, CALLS_ALONE))
    })
}

/// When a thread notifies the other.
#[derive(Copy, Clone)]
enum Notify {
    Unlocked,
    Held,
}

fn sync_condvar_turns(notify: Notify) -> Option<f64> {
    let mutex = parking_lot::Mutex::new(Tally::new());
    let condvar = parking_lot::Condvar::new();
    let takes_turns = |side: u64| {
        for _ in 0..WORD_ROUNDS {
            let mut tally = mutex.lock();
            while tally.count % 2 != side {
                condvar.wait(&mut tally);
            }
            tally.count_one(0);
            if let Notify::Unlocked = notify {
                drop(tally);
            }
            condvar.notify_one();
        }
        true
    };
    let start = Instant::now();
    both(|| takes_turns(0), || takes_turns(1));
    let cost = since(start, WORD_ROUNDS);
    (mutex.lock().count == 2 * WORD_ROUNDS).then_some(cost)
}

fn std_condvar_turns() -> Option<f64> {
    let mutex = Mutex::new(Tally::new());
    let condvar = Condvar::new();
    let takes_turns = |side: u64| {
        for _ in 0..WORD_ROUNDS {
            let tally = mutex.lock().unwrap();
            let mut tally = condvar
                .wait_while(tally, |tally| tally.count % 2 != side)
                .unwrap();
            tally.count_one(0);
            drop(tally);
            condvar.notify_one();
        }
        true
    };
    let start = Instant::now();
    both(|| takes_turns(0), || takes_turns(1));
    let cost = since(start, WORD_ROUNDS);
    (mutex.lock().unwrap().count == 2 * WORD_ROUNDS).then_some(cost)
}

// A queue with few places.

/// How many things are queued, and how many were taken.
struct Things {
    queued: u64,
    taken: u64,
}

/// The queue, of which the things are counted alone.
struct Queue {
    things: parking_lot::Mutex<Things>,
    filled: parking_lot::Condvar,
    emptied: parking_lot::Condvar,
}

impl Queue {
    fn put(&self) {
        const PLACES: u64 = 16;
        let mut things = self.things.lock();
        self.emptied
            .wait_while(&mut things, |things| things.queued == PLACES);
        things.queued += 1;
        self.filled.notify_one();
    }

    fn take(&self) {
        let mut things = self.things.lock();
        self.filled
            .wait_while(&mut things, |things| things.queued == 0);
        things.queued -= 1;
        things.taken += 1;
        self.emptied.notify_one();
    }
}

/// Half of so many threads put things into the queue, and the others take them.
fn sync_queue(threads: usize) -> Option<f64> {
    const CALLS: u64 = 10_000;
    const RUNS: usize = 5;
    let queue = Queue {
        things: parking_lot::Mutex::new(Things {
            queued: 0,
            taken: 0,
        }),
        filled: parking_lot::Condvar::new(),
        emptied: parking_lot::Condvar::new(),
    };
    let passed = CALLS * threads as u64 / 2;
    let cost = median_of(RUNS, || {
        let spent = together(threads, |place| {
            for _ in 0..CALLS {
                if place % 2 == 0 {
                    queue.put();
                } else {
                    queue.take();
                }
            }
            true
        })?;
        Some(spent.as_nanos() as f64 / passed as f64)
    });
    let taken = queue.things.lock().taken;
    cost.filter(|_| taken == passed * (RUNS as u64 + 1))
}

// Many keys.

/// So many threads that have parked make a table of 4,096 buckets.
const REGISTERED: usize = 1_000;

const MANY_KEYS: usize = 100_000;

/// This thread and others that sleep meanwhile are registered.
fn many_keys() -> Option<f64> {
    let registered = Barrier::new(REGISTERED);
    let measured = Barrier::new(REGISTERED);
    thread::scope(|scope| {
        for _ in 1..REGISTERED {
            scope.spawn(|| {
                park_with(KEYS[0], || false, || (), None);
                registered.wait();
                measured.wait();
            });
        }
        registered.wait();
        let cost = median_of(7, cost_of_many_keys);
        measured.wait();
        cost
    })
}

fn cost_of_many_keys() -> Option<f64> {
    let start = Instant::now();
    let mut unparked = 0;
    for key in 0..MANY_KEYS {
        unparked += usize::from(unparks_itself(key));
    }
    let cost = since(start, MANY_KEYS as u64);
    (unparked == MANY_KEYS).then_some(cost)
}

/// Parks, and unparks itself before it sleeps.
fn unparks_itself(key: usize) -> bool {
    let unparks = || {
        unpark(key);
    };
    matches!(
        park_with(key, || true, unparks, None),
        ParkResult::Unparked(_)
    )
}

// A thousand threads.

fn thousand_threads() -> Option<f64> {
    const THREADS: usize = 1_000;
    let parked = Arc::new(AtomicU64::new(0));
    let start = Instant::now();
    let mut threads = Vec::with_capacity(THREADS);
    for key in 0..THREADS {
        let parked = parked.clone();
        let comes = move || {
            parked.fetch_add(1, SeqCst);
        };
        let waits = move || {
            matches!(
                park_with(key, || true, comes, None),
                ParkResult::Unparked(_)
            )
        };
        let builder = thread::Builder::new().stack_size(64 * 1024);
        threads.push(builder.spawn(waits).ok()?);
    }
    if !comes_to(&parked, THREADS as u64) {
        return None;
    }
    let mut woken = 0;
    for key in 0..THREADS {
        woken += unsafe { unpark_all(key, DEFAULT_UNPARK_TOKEN) };
    }
    let mut all = woken == THREADS;
    for thread in threads {
        all &= thread.join().unwrap();
    }
    all.then(|| since(start, THREADS as u64))
}
