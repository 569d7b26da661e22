//! Compares the library with tl 0.7.8 and with a model of the paper's rules, on many pages and selectors; and under other profiles
//! than tl's and in the finished view, which tl does not have, with the model alone.
//!
//! Ends with status 0 if there is no difference, 1 if there is one, 2 if it was started wrongly.

mod asks;
mod compare;
#[cfg(test)]
mod differences;
mod execution;
mod ffi;
mod findings;
mod guard;
mod lists;
mod model;
mod numbers;
mod ours;
mod pages;
mod plan;
mod profiles;
mod question;
mod record;
mod report;
mod selectors;
mod shrink;
mod tl_side;

use plan::Batch;
use report::Report;
use std::collections::BTreeMap;
use std::path::{Path, PathBuf};
use std::process::ExitCode;
use std::sync::atomic::{AtomicUsize, Ordering};
use std::sync::Mutex;
use std::thread;
use std::time::Instant;

const USAGE: &str = "usage: compare [--pages N] [--seed S] [--jobs J] [--record FOLDER]
  --pages N   about how many pages to compare under tl's profile (2000000); half as many are compared under others
  --seed S    another seed gives other random inputs (1)
  --jobs J    threads (1); the inputs do not depend on it
  --record F  compare nothing; write tl's answers to some pages, and the model's under other profiles and in the finished view, into
              the folder F, for the program replay";

/// tl descends into nested tags by recursion; the deepest page within the limit needs some megabytes.
const STACK: usize = 1 << 29;

struct Options {
    pages: u64,
    seed: u64,
    jobs: usize,
    record: Option<PathBuf>,
}

fn options() -> Option<Options> {
    let mut options = Options {
        pages: 2_000_000,
        seed: 1,
        jobs: 1,
        record: None,
    };
    let mut words = std::env::args().skip(1);
    while let Some(word) = words.next() {
        let value = words.next()?;
        if word == "--record" {
            options.record = Some(PathBuf::from(value));
            continue;
        }
        let number: u64 = value.parse().ok()?;
        match word.as_str() {
            "--pages" => options.pages = number,
            "--seed" => options.seed = number,
            "--jobs" => options.jobs = number.clamp(1, 64) as usize,
            _ => return None,
        }
    }
    Some(options)
}

fn main() -> ExitCode {
    let Some(options) = options() else {
        eprintln!("{USAGE}");
        return ExitCode::from(2);
    };
    if let Some(folder) = &options.record {
        return recorded(folder, options.seed);
    }
    // A panic is reported with the input that led to it, not where it happens.
    std::panic::set_hook(Box::new(|_| {}));
    let start = Instant::now();
    let report = run(&options);
    report.print();
    println!(
        "{} seconds, seed {}",
        start.elapsed().as_secs(),
        options.seed
    );
    ExitCode::from(report.has_differences() as u8)
}

/// Records tl's answers; a page on which tl and the model differ would stop it.
fn recorded(folder: &Path, seed: u64) -> ExitCode {
    let written = thread::scope(|scope| start(scope, || record::record(folder, seed)).join());
    match written {
        Ok(Ok(())) => ExitCode::SUCCESS,
        Ok(Err(why)) => {
            eprintln!("{}: {why}", folder.display());
            ExitCode::FAILURE
        }
        Err(_) => ExitCode::FAILURE,
    }
}

/// Goes through all batches, as many at a time as there are threads.
fn run(options: &Options) -> Report {
    let batches = plan::batches(options.pages);
    let next = AtomicUsize::new(0);
    let done = Mutex::new(BTreeMap::new());
    let work = || loop {
        let number = next.fetch_add(1, Ordering::Relaxed);
        let Some(batch) = batches.get(number) else {
            return;
        };
        let report = compare_batch(batch, options.seed);
        done.lock()
            .expect("no thread panics")
            .insert(number, report);
    };
    thread::scope(|scope| {
        for _ in 0..options.jobs {
            start(scope, work);
        }
    });
    // In the order of the batches, so that the same differences are shown whichever thread is the faster.
    let mut whole = Report::default();
    for report in done.into_inner().expect("no thread panics").into_values() {
        whole.join(report);
    }
    thread::scope(|scope| {
        start(scope, || whole.shrink())
            .join()
            .expect("no thread panics")
    })
}

/// Starts a thread in which tl can go as deep as it needs.
fn start<'s, T: Send + 's>(
    scope: &'s thread::Scope<'s, '_>,
    work: impl FnOnce() -> T + Send + 's,
) -> thread::ScopedJoinHandle<'s, T> {
    let thread = thread::Builder::new().stack_size(STACK);
    let started = thread.spawn_scoped(scope, work);
    started.expect("a thread can be started")
}

fn compare_batch(batch: &Batch, seed: u64) -> Report {
    let mut report = Report::default();
    batch.each(seed, |input, mut random| {
        let found = guard::guarded(|| input.compare(&mut random));
        report.add(batch.kind, input, found);
    });
    report
}
