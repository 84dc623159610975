//! The pieces of a round, which workers search side by side.

use crate::lanes::Lane;
use crate::open::{Node, Paths};
use crate::sheets::Sheet;
use crate::walking::Walker;
use std::hint;
use std::sync::atomic::{AtomicUsize, Ordering::SeqCst};
use std::sync::{Condvar, Mutex, RwLock};
use std::thread;

/// How often a thread that waits looks again before it leaves the processor to others.
const LOOKS: usize = 1_000;
/// The call that ends the crew.
const END: usize = usize::MAX;

/// What the searches of a round have to know.
pub struct Round<T> {
    pub nodes: Vec<Node<T>>,
    pub budget: u64,
    pub piece: usize,
    /// The best makespan, and the least bound of an open node: a piece that ends at that bound ends the search.
    pub best: T,
    pub bound: T,
}

impl<T> Round<T> {
    fn pieces(&self) -> usize {
        self.nodes.len().div_ceil(self.piece)
    }
}

pub struct Task<T> {
    pub round: Round<T>,
    pub paths: Paths,
}

/// The pieces of a round, claimed one after the other, and the lowest piece that ended at the round's bound.
struct Board {
    claimed: AtomicUsize,
    hit: AtomicUsize,
}

impl Board {
    fn open(&self, pieces: usize) {
        self.claimed.store(0, SeqCst);
        self.hit.store(pieces, SeqCst);
    }

    /// Claims pieces and searches them, as long as there are some whose sheets may count.
    fn work<T: Lane, const BLOCKS: usize>(
        &self,
        walker: &mut Walker<T, BLOCKS>,
        task: &Task<T>,
    ) -> Vec<(usize, Sheet<T>)> {
        let Task { round, paths } = task;
        let mut sheets = Vec::new();
        for (number, piece) in self.claims(round) {
            let sheet = walker.search(piece, paths, round.best, round.budget);
            if sheet.best == round.bound {
                self.hit.fetch_min(number, SeqCst);
            }
            sheets.push((number, sheet));
        }
        sheets
    }

    fn claims<'r, T>(&self, round: &'r Round<T>) -> impl Iterator<Item = (usize, &'r [Node<T>])> {
        std::iter::from_fn(|| {
            let number = self.claimed.fetch_add(1, SeqCst);
            let is_wanted = number < round.pieces() && number <= self.hit.load(SeqCst);
            is_wanted.then(|| {
                let first = number * round.piece;
                (number, &round.nodes[first..round.nodes.len().min(first + round.piece)])
            })
        })
    }
}

/// The thread that runs the search, and others that wait to be called for a round.
pub struct Crew<T> {
    pub task: RwLock<Task<T>>,
    board: Board,
    others: usize,
    // the number of the last call, and the others that are still at work on it
    call: AtomicUsize,
    busy: AtomicUsize,
    lock: Mutex<()>,
    wake: Condvar,
    // what the others searched
    sheets: Mutex<Vec<(usize, Sheet<T>)>>,
}

impl<T: Lane> Crew<T> {
    pub fn new(others: usize, task: Task<T>) -> Self {
        Crew {
            task: RwLock::new(task),
            board: Board { claimed: AtomicUsize::new(0), hit: AtomicUsize::new(0) },
            others,
            call: AtomicUsize::new(0),
            busy: AtomicUsize::new(0),
            lock: Mutex::new(()),
            wake: Condvar::new(),
            sheets: Mutex::new(Vec::new()),
        }
    }

    /// Searches the pieces of the round. Returns their sheets in order, up to the first one that ended at the round's
    /// bound, or all of them if none did.
    pub fn search<const BLOCKS: usize>(&self, walker: &mut Walker<T, BLOCKS>) -> Vec<Sheet<T>> {
        let task = self.task.read().expect("no worker panics");
        let pieces = task.round.pieces();
        self.board.open(pieces);
        let is_shared = self.others > 0 && pieces > 1;
        if is_shared {
            self.busy.store(self.others, SeqCst);
            self.call(self.call.load(SeqCst) + 1);
        }
        let mut sheets = self.board.work(walker, &task);
        if is_shared {
            self.wait_for_others();
            sheets.append(&mut self.sheets.lock().expect("no worker panics"));
        }
        sheets.sort_unstable_by_key(|(number, _)| *number);
        sheets.truncate(self.board.hit.load(SeqCst) + 1);
        sheets.into_iter().map(|(_, sheet)| sheet).collect()
    }

    fn call(&self, number: usize) {
        let _lock = self.lock.lock().expect("no worker panics");
        self.call.store(number, SeqCst);
        self.wake.notify_all();
    }

    fn wait_for_others(&self) {
        let mut looks = 0;
        while self.busy.load(SeqCst) > 0 {
            looks += 1;
            if looks < LOOKS { hint::spin_loop() } else { thread::yield_now() }
        }
    }

    /// Ends the other threads.
    pub fn end(&self) {
        self.call(END);
    }

    /// Works at each call, until the crew is ended.
    pub fn serve<const BLOCKS: usize>(&self, mut walker: Walker<T, BLOCKS>) {
        let mut call = 0;
        loop {
            call = self.call_after(call);
            if call == END {
                return;
            }
            let task = self.task.read().expect("no worker panics");
            let mut sheets = self.board.work(&mut walker, &task);
            self.sheets.lock().expect("no worker panics").append(&mut sheets);
            drop(task);
            self.busy.fetch_sub(1, SeqCst);
        }
    }

    fn call_after(&self, last: usize) -> usize {
        for _ in 0..LOOKS {
            let call = self.call.load(SeqCst);
            if call != last {
                return call;
            }
            hint::spin_loop();
        }
        let lock = self.lock.lock().expect("no worker panics");
        let _lock = self.wake.wait_while(lock, |()| self.call.load(SeqCst) == last).expect("no worker panics");
        self.call.load(SeqCst)
    }
}
