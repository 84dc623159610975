//! The same search as the program's, in plain Rust without proofs: `bench/beside` measures the program against it.
//!
//!     baseline solve [--format F] [--name N] [--rounds R] [--budget B] [--piece K] [--order O] [--workers W] FILE
//!     baseline list [--format F] FILE
//!     baseline check [--format F] [--name N] FILE
//!
//! Prints what the program prints, except for faults: it expects words and texts to be sound. The search goes over rows
//! of lanes: the operations that wait on a machine are bounded eight at a time. Each open child that was tried has the
//! state that its word leaves, so nothing is ever undone; a settled child is filled from its word.
//!
//! It searches as the program does (docs/DECISIONS.md). If a proof lets the program omit a bounds check, it omits the
//! check, too. These things differ, beside the first bound, which it finds in its lanes:
//!
//! - Memory for states: half a megabyte in all, but at least two states; in the program 400 KB for pending children,
//!   and two states a walk. A state is one piece of memory with bits of next operations; in the program some pieces in
//!   a box. For a word's children as many states are taken back as they want; in the program at most three.
//! - The width of lanes: by the opening makespan, the greatest load of a machine and the longest route; in the program
//!   by the latest release, all times, and the greatest load of a machine with its tail.
//! - Threads and their states last for the run; in the program for a round, and short rounds have fewer workers. The
//!   calling thread searches, too; in the program it waits. Plain counts say how many share a word; in the program
//!   atomic ones, which shows in small pieces.
//! - Open nodes by bound are in std's map of lists; in the program in a row of stacks if bounds are small, else in
//!   std's map. By `--order kept` each round seeks the least bound among all open nodes; the program has a list of
//!   least bounds.
//! - There is a walk of its own for 1, 2, 4, 7 and 8 blocks a machine in lanes of each width; in the program for 2, 3
//!   and 4 in lanes of 16 bits.

#![feature(portable_simd)]

mod bits;
mod bounding;
mod checking;
mod crews;
mod desk;
mod instance;
mod lanes;
mod layout;
mod open;
mod report;
mod rounds;
mod sheets;
mod states;
mod texts;
mod untested;
mod walking;

use instance::Instance;
use rounds::{Order, Plan};
use std::fs;
use std::io::{self, BufWriter, Write};
use std::process::ExitCode;
use texts::Format;

struct Options {
    format: Format,
    name: Option<String>,
    plan: Plan,
}

fn options_of(words: &[String]) -> Option<Options> {
    let plan = Plan { rounds: 1000, budget: 100_000, piece: 1, order: Order::Kept, workers: 1 };
    let mut options = Options { format: Format::Orlib, name: None, plan };
    for pair in words.chunks(2) {
        let value = pair.get(1)?;
        match pair[0].as_str() {
            "--format" => options.format = Format::of(value)?,
            "--name" => options.name = Some(value.clone()),
            "--rounds" => options.plan.rounds = value.parse().ok()?,
            "--budget" => options.plan.budget = value.parse().ok()?,
            "--piece" => options.plan.piece = value.parse().ok()?,
            "--workers" => options.plan.workers = value.parse().ok()?,
            "--order" if value == "kept" => options.plan.order = Order::Kept,
            "--order" if value == "bound" => options.plan.order = Order::Bound,
            _ => return None,
        }
    }
    Some(options)
}

/// The instance that is asked for: the first of that name, or the first of all.
fn instance_of(text: &[u8], options: &Options) -> Option<Instance> {
    let is_asked = |instance: &Instance| options.name.as_ref().is_none_or(|name| *name == instance.name);
    texts::instances_of(text, options.format)?.into_iter().find(is_asked)
}

fn run(words: &[String], out: &mut impl Write) -> Option<()> {
    let (command, rest) = words.split_first()?;
    let (file, options) = rest.split_last()?;
    let options = options_of(options)?;
    let text = fs::read(file).ok()?;
    match command.as_str() {
        "list" => {
            for instance in texts::instances_of(&text, options.format)? {
                writeln!(out, "{} {} {}", instance.name, instance.jobs.len(), instance.machines).ok()?;
            }
        }
        "check" => {
            let instance = instance_of(&text, &options)?;
            let starts = texts::schedule_of(&text, &instance)?;
            match checking::makespan_of(&instance, &starts) {
                Some(makespan) => writeln!(out, "feasible {makespan}").ok()?,
                None => writeln!(out, "infeasible").ok()?,
            }
        }
        "solve" => {
            let instance = instance_of(&text, &options)?;
            report::write(out, &instance, &rounds::answer(&instance, &options.plan)).ok()?;
        }
        _ => return None,
    }
    out.flush().ok()
}

fn main() -> ExitCode {
    let words: Vec<String> = std::env::args().skip(1).collect();
    match run(&words, &mut BufWriter::new(io::stdout())) {
        Some(()) => ExitCode::SUCCESS,
        None => {
            eprintln!("usage: baseline solve|list|check [OPTIONS] FILE");
            ExitCode::from(2)
        }
    }
}
