//! The search of an instance, in rounds.

use crate::crews::{Crew, Round, Task};
use crate::instance::Instance;
use crate::lanes::Lane;
use crate::layout::{Layout, blocks_needed};
use crate::open::{NO_JOB, Node, Open, Paths};
use crate::sheets::Sheet;
use crate::walking::Walker;
use std::cmp::Reverse;
use std::collections::BTreeMap;
use std::{mem, thread};

/// A round has at most this many pieces.
const PIECES: usize = 256;
/// The most operations of an instance whose machines are ordered, and by the bounds of how many words.
const MOST_ORDERED: usize = 400;
const WORDS: usize = 4;

#[derive(Clone, Copy, PartialEq, Eq)]
pub enum Order {
    Kept,
    Bound,
}

pub struct Plan {
    pub rounds: u64,
    pub budget: u64,
    pub piece: usize,
    pub order: Order,
    pub workers: usize,
}

pub struct Answer {
    pub word: Vec<u16>,
    pub makespan: u64,
    pub bound: u64,
    pub open: usize,
    pub rounds: u64,
    pub nodes: u64,
}

struct Run<T> {
    word: Vec<u16>,
    best: T,
    open: Open<T>,
    /// How many open nodes have each bound from the horizon on: no remaining round can take them.
    distant: BTreeMap<T, usize>,
    horizon: Option<T>,
    /// How many nodes are opened before they are counted again.
    wait: usize,
    rounds_left: u64,
    nodes: u64,
}

impl<T: Lane> Run<T> {
    fn new(instance: &Instance, plan: &Plan) -> Self {
        let open = match plan.order {
            Order::Kept => Open::Kept(Vec::new()),
            Order::Bound => Open::ByBound(BTreeMap::new()),
        };
        let word = instance.opening_word();
        let best = T::of(instance.placed(&word).1 + 1);
        let (distant, horizon, rounds_left) = (BTreeMap::new(), None, plan.rounds);
        Run { word, best, open, distant, horizon, wait: 0, rounds_left, nodes: 0 }
    }

    /// Opens a node, or only counts it if its bound is from the horizon on.
    fn push(&mut self, node: Node<T>, paths: &mut Paths) {
        if self.horizon.is_some_and(|horizon| node.bound >= horizon) {
            *self.distant.entry(node.bound).or_default() += 1;
        } else {
            paths.hold(node.path);
            self.open.push(node);
            self.wait = self.wait.saturating_sub(1);
        }
    }

    /// Keeps the nodes of least bounds, up to the first bound at which they are `most` or more, and only counts the
    /// others. Then does nothing until as many nodes were opened as there are bounds, and an eighth of the nodes kept.
    fn retire(&mut self, most: usize, paths: &mut Paths) {
        let Open::ByBound(stacks) = &mut self.open else { return };
        if self.wait > 0 {
            return;
        }
        let mut kept = 0;
        let enough = stacks.iter().find(|(_, stack)| {
            kept += stack.len();
            kept >= most
        });
        self.wait = stacks.len() + kept / 8;
        let Some((&last, _)) = enough else { return };
        let horizon = T::of(last.number() + 1);
        for (bound, stack) in stacks.split_off(&horizon) {
            *self.distant.entry(bound).or_default() += stack.len();
            stack.iter().for_each(|node| paths.release(node.path));
        }
        self.horizon = Some(horizon);
    }

    /// Opens the empty word, unless its bound closes it.
    fn begin(&mut self, bound: T, paths: &mut Paths) {
        if bound < self.best {
            let path = paths.add(Vec::new());
            self.push(Node { path, length: 0, last: NO_JOB, bound }, paths);
        }
    }

    /// At most `WORDS` words of the next round, at even distances.
    fn some_words(&mut self, plan: &Plan, paths: &Paths) -> Vec<Vec<u16>> {
        let front = self.open.take(PIECES * plan.piece);
        let words = front.iter().step_by(front.len() / WORDS + 1).map(|node| {
            let (beginning, last) = node.parts(paths);
            [beginning, last.as_slice()].concat()
        });
        let words = words.collect();
        for node in front.into_iter().rev() {
            self.open.push(node);
        }
        words
    }

    /// One round.
    fn round<const BLOCKS: usize>(&mut self, plan: &Plan, bound: T, walker: &mut Walker<T, BLOCKS>, crew: &Crew<T>) {
        let nodes = self.open.take(PIECES * plan.piece);
        let best = self.best;
        crew.task.write().expect("no worker panics").round =
            Round { nodes, budget: plan.budget, piece: plan.piece, best, bound };
        let mut sheets = crew.search(walker);
        for sheet in &mut sheets {
            self.nodes += sheet.taken;
            if sheet.best < self.best {
                self.best = sheet.best;
                self.word = sheet.found.take().expect("a better makespan comes with its word");
            }
        }
        self.rounds_left -= 1;
        if self.best == bound {
            self.distant.clear();
            return self.open.clear();
        }
        let Task { round, paths } = &mut *crew.task.write().expect("no worker panics");
        if self.best < best {
            self.open.close(self.best, paths);
            self.distant.split_off(&self.best);
        }
        for sheet in sheets.into_iter().rev() {
            self.gather(sheet, paths);
        }
        for node in &round.nodes {
            paths.release(node.path);
        }
        self.retire(self.rounds_left as usize * PIECES * plan.piece + 1, paths);
    }

    /// Opens the nodes that a sheet left, the last one first, so that the first one is taken first.
    fn gather(&mut self, sheet: Sheet<T>, paths: &mut Paths) {
        let best = self.best;
        for node in sheet.untaken.iter().rev().filter(|node| node.bound < best) {
            self.push(*node, paths);
        }
        let mut left = sheet.left.iter().rev().filter(|node| node.bound < best).peekable();
        if left.peek().is_some() {
            let path = paths.add(sheet.path);
            left.for_each(|node| {
                self.push(Node { path, length: node.length, last: node.last, bound: node.bound }, paths)
            });
        }
    }
}

/// A layout in which machines with the greatest bounds after these words come first, since they close most children. In
/// large instances machines keep their order.
fn layout_for<T: Lane, const BLOCKS: usize>(instance: &Instance, words: &[Vec<u16>]) -> Layout<T, BLOCKS> {
    let as_they_are: Vec<usize> = (0..instance.machines).collect();
    let layout = Layout::new(instance, &as_they_are);
    if instance.size() > MOST_ORDERED {
        return layout;
    }
    let mut walker = Walker::new(layout);
    let mut keys = vec![0; instance.machines];
    for word in words {
        for (key, bound) in keys.iter_mut().zip(walker.machine_bounds(word)) {
            *key += bound.number();
        }
    }
    let mut order = as_they_are;
    order.sort_by_key(|machine| Reverse(keys[*machine]));
    let mut ranks = vec![0; instance.machines];
    for (rank, machine) in order.into_iter().enumerate() {
        ranks[machine] = rank;
    }
    Layout::new(instance, &ranks)
}

/// Searches rounds until no node is open or all rounds of the plan are done, with the threads of the crew beside this
/// one. Returns how many rounds were done.
fn search<T: Lane, const BLOCKS: usize>(
    run: &mut Run<T>,
    plan: &Plan,
    rounds: u64,
    others: usize,
    layout: &Layout<T, BLOCKS>,
    paths: &mut Paths,
) -> u64 {
    let mut walker = Walker::new(layout.clone());
    let round = Round { nodes: Vec::new(), budget: 0, piece: 1, best: run.best, bound: run.best };
    let crew = Crew::new(others, Task { round, paths: mem::take(paths) });
    let mut done = 0;
    thread::scope(|scope| {
        for _ in 0..others {
            scope.spawn(|| crew.serve(Walker::new(layout.clone())));
        }
        while done < rounds
            && let Some(bound) = run.open.least_bound()
        {
            run.round(plan, bound, &mut walker, &crew);
            done += 1;
        }
        crew.end();
    });
    *paths = crew.task.into_inner().expect("no worker panics").paths;
    done
}

/// The answer of a plan on an instance, with lanes wide enough for it, and `BLOCKS` blocks of them a machine. The first
/// round has only the empty word: if machines are ordered, later rounds have a layout for the words of the second.
fn answer_in<T: Lane, const BLOCKS: usize>(instance: &Instance, plan: &Plan) -> Answer {
    let mut run = Run::new(instance, plan);
    let mut paths = Paths::default();
    let mut layout = layout_for::<T, BLOCKS>(instance, &[Vec::new()]);
    run.begin(Walker::new(layout.clone()).opening_bound(), &mut paths);
    let mut rounds = 0;
    if instance.size() <= MOST_ORDERED {
        rounds = search(&mut run, plan, plan.rounds.min(1), 0, &layout, &mut paths);
        layout = layout_for(instance, &run.some_words(plan, &paths));
    }
    rounds += search(&mut run, plan, plan.rounds - rounds, plan.workers - 1, &layout, &mut paths);
    let bound = run.open.least_bound().unwrap_or(run.best);
    Answer {
        word: run.word,
        makespan: run.best.number() - 1,
        bound: bound.number() - 1,
        open: run.open.len() + run.distant.values().sum::<usize>(),
        rounds,
        nodes: run.nodes,
    }
}

fn answer_by_length<T: Lane>(instance: &Instance, plan: &Plan) -> Answer {
    match blocks_needed(instance) {
        _ if instance.machines > 64 => answer_in::<T, 0>(instance, plan),
        0 | 1 => answer_in::<T, 1>(instance, plan),
        2 => answer_in::<T, 2>(instance, plan),
        3 | 4 => answer_in::<T, 4>(instance, plan),
        5..=7 => answer_in::<T, 7>(instance, plan),
        8 => answer_in::<T, 8>(instance, plan),
        _ => answer_in::<T, 0>(instance, plan),
    }
}

/// The answer of a plan on an instance, with the narrowest lanes that hold all numbers. A head is always below the
/// opening makespan, and at most the times of one machine and one tail are added to it.
pub fn answer(instance: &Instance, plan: &Plan) -> Answer {
    let opening = instance.placed(&instance.opening_word()).1;
    let mut loads = vec![0; instance.machines];
    for operation in instance.jobs.iter().flat_map(|job| &job.route) {
        loads[operation.machine] += operation.time;
    }
    let route_times = instance.jobs.iter().map(|job| job.route.iter().map(|operation| operation.time).sum::<u64>());
    let most = opening + loads.into_iter().max().unwrap_or(0) + route_times.max().unwrap_or(0);
    if most < u64::from(u16::MAX) - 1 {
        answer_by_length::<u16>(instance, plan)
    } else if most < u64::from(u32::MAX) - 1 {
        answer_by_length::<u32>(instance, plan)
    } else {
        answer_by_length::<u64>(instance, plan)
    }
}
