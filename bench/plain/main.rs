//! What the auction does, in plain Rust and with nothing proved: for `bench/run` only.
//!
//!     plain --mode serial|lock|shards|phases [options of rubis_auction] < input
//!
//! It reads the same input, answers the same replies and writes the same text. It keeps no commit
//! numbers and no history of rows, so it has less to do and can give no account of its order.
//!
//! - `serial`: no lock; one thread performs 64 requests of each worker in turn.
//! - `lock`: a thread for each worker, one lock around everything.
//! - `shards`: a thread for each worker, a lock for each shard, taken in ascending order.
//! - `phases`: phases by quotas, locks as in `shards`; in split phases each worker has a slice of
//!   each hot record. Threads are started for each phase, unless they save no time: it has at most
//!   128 requests per worker, or at least half of its requests take one shard, as far as a sample
//!   tells. The rule and the sample are those of the proved program.
//!
//! In all modes lines are read where they lie, by at most a thread per worker, and a thread for
//! each worker makes its text. The first thread does the part of the first worker.
mod modes;
mod numbers;
mod reading;
mod tables;
mod text;
mod types;

use std::fs::File;
use std::io;
use std::os::fd::AsFd;

use modes::{run_locked, run_phases, run_serial};
use reading::{read, Input};
use tables::{open, Alone, Locked, Shard};
use text::write_replies;
use types::{Given, Reply, Worker};

const USAGE: &str = "the options are those of rubis_auction, each with its number, and --mode";

#[derive(Clone, Copy, PartialEq, Eq)]
enum Mode {
    Serial,
    Lock,
    Shards,
    Phases,
}

struct Options {
    mode: Mode,
    workers: u32,
    shards: u32,
    joined: u32,
    split: u32,
    threshold: u32,
    hot: u32,
    users: u32,
    categories: u32,
}

impl Options {
    fn of_words(mut words: impl Iterator<Item = String>) -> Option<Options> {
        let mut options = Options {
            mode: Mode::Phases,
            workers: 1,
            shards: 4,
            joined: 64,
            split: 64,
            threshold: 8,
            hot: 8,
            users: 100,
            categories: 10,
        };
        while let Some(word) = words.next() {
            let value = words.next()?;
            if word == "--mode" {
                options.mode = mode_named(&value)?;
                continue;
            }
            *options.number_of(&word)? = value.parse().ok()?;
        }
        Some(options)
    }

    fn number_of(&mut self, word: &str) -> Option<&mut u32> {
        match word {
            "--workers" => Some(&mut self.workers),
            "--shards" => Some(&mut self.shards),
            "--joined" => Some(&mut self.joined),
            "--split" => Some(&mut self.split),
            "--threshold" => Some(&mut self.threshold),
            "--hot" => Some(&mut self.hot),
            "--users" => Some(&mut self.users),
            "--categories" => Some(&mut self.categories),
            _ => None,
        }
    }
}

fn mode_named(word: &str) -> Option<Mode> {
    match word {
        "serial" => Some(Mode::Serial),
        "lock" => Some(Mode::Lock),
        "shards" => Some(Mode::Shards),
        "phases" => Some(Mode::Phases),
        _ => None,
    }
}

fn stop(status: i32, words: &str) -> ! {
    eprintln!("plain: {words}");
    std::process::exit(status)
}

/// Performs the rows and then the scripts.
fn perform_all(input: &Input, options: &Options) -> Vec<Worker> {
    let mut workers: Vec<Worker> = (0..options.workers).map(Worker::new).collect();
    let shards = if options.mode == Mode::Lock {
        1
    } else {
        options.shards as usize
    };
    let mut locked = Locked::new(shards, options);
    let mut alone = Alone(Shard::new(0, 1, options));
    let given = Given {
        options,
        items: &input.items.all,
    };
    match options.mode {
        Mode::Serial => open(&mut workers, &mut alone, given, &input.rows),
        _ => open(&mut workers, &mut locked, given, &input.rows),
    }
    for (me, script) in workers.iter_mut().zip(&input.scripts) {
        me.replies = vec![Reply::None; script.len()];
        me.written.clear();
    }
    match options.mode {
        Mode::Serial => run_serial(workers, alone, &input.scripts, given),
        Mode::Lock | Mode::Shards => run_locked(workers, locked, &input.scripts, given),
        Mode::Phases => run_phases(workers, locked, &input.scripts, given),
    }
}

/// Writes the replies past the standard output's own buffer, which looks for the ends of lines.
fn write_out(workers: &[Worker], names: &[u8]) -> io::Result<()> {
    let output = io::stdout().as_fd().try_clone_to_owned()?;
    write_replies(workers, names, &mut File::from(output))
}

fn main() {
    let options = Options::of_words(std::env::args().skip(1)).unwrap_or_else(|| stop(1, USAGE));
    let input = read(io::stdin().lock(), options.workers);
    let workers = perform_all(&input, &options);
    if write_out(&workers, &input.items.names).is_err() {
        stop(4, "output cannot be written");
    }
    std::process::exit(0)
}
