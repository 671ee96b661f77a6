//! Users who like pages in plain Rust, with nothing proved: for `bench/applications` only.
//!
//!     applications --mode=records|lock|alone|draw [--workers=N] [--requests=N] [--skew=N] ..
//!
//! It draws likes and views, and keeps each worker's replies. It keeps no history, so it has less to
//! do than `example_likes` and can give no account of its order.
//!
//! - `records`: a thread for each worker, and a lock for each record, in a cache line of its own.
//!   A request takes those of its records in ascending order.
//! - `lock`: a thread for each worker, one lock around all records.
//! - `alone`: no lock; one thread performs 64 requests of each worker in turn.
//! - `draw`: performs nothing, and writes the requests as `example_likes` reads them.
//!
//! Scripts are in memory, replies have room from the start, and records are found by their place:
//! first the users, then the pages.
use std::io::{self, BufWriter, Write};
use std::iter;
use std::sync::Mutex;
use std::thread;
use std::time::{Duration, Instant};

const USAGE: &str = "applications --mode=records|lock|alone|draw [--option=N ..]";

#[derive(Clone, Copy)]
struct Tally {
    likes: u64,
    last: Option<u64>,
}

#[derive(Clone, Copy)]
enum Kind {
    Like { time: u64 },
    View,
}

#[derive(Clone, Copy)]
struct Request {
    user: u32,
    page: u32,
    kind: Kind,
}

#[allow(dead_code)]
enum Reply {
    Liked,
    Viewed { likes: u64, last: Option<u64> },
}

impl Request {
    fn perform(self, user: &mut Tally, page: &mut Tally) -> Reply {
        match self.kind {
            Kind::Like { time } => {
                user.last = user.last.max(Some(time));
                page.likes += 1;
                Reply::Liked
            }
            Kind::View => Reply::Viewed {
                likes: page.likes,
                last: user.last,
            },
        }
    }

    fn perform_at(self, table: &mut [Tally]) -> Reply {
        let [user, page] = table
            .get_disjoint_mut([self.user as usize, self.page as usize])
            .expect("no user is a page");
        self.perform(user, page)
    }
}

/// What several threads perform requests on.
trait Shared: Sync {
    fn new(records: Vec<Tally>) -> Self;
    fn perform(&self, request: Request) -> Reply;
    fn records(self) -> Vec<Tally>;
}

struct OneLock(Mutex<Vec<Tally>>);

impl Shared for OneLock {
    fn new(records: Vec<Tally>) -> Self {
        OneLock(Mutex::new(records))
    }

    fn perform(&self, request: Request) -> Reply {
        request.perform_at(&mut self.0.lock().expect("no thread panics"))
    }

    fn records(self) -> Vec<Tally> {
        self.0.into_inner().expect("no thread panicked")
    }
}

/// A lock with no other in its cache line.
#[repr(align(64))]
struct RecordLock(Mutex<Tally>);

struct RecordLocks(Vec<RecordLock>);

impl Shared for RecordLocks {
    fn new(records: Vec<Tally>) -> Self {
        let locks = records.into_iter().map(Mutex::new).map(RecordLock);
        RecordLocks(locks.collect())
    }

    fn perform(&self, request: Request) -> Reply {
        let lock = |key: u32| self.0[key as usize].0.lock().expect("no thread panics");
        // Users have the lower keys.
        let (mut user, mut page) = (lock(request.user), lock(request.page));
        request.perform(&mut user, &mut page)
    }

    fn records(self) -> Vec<Tally> {
        let taken = |lock: RecordLock| lock.0.into_inner().expect("no thread panicked");
        self.0.into_iter().map(taken).collect()
    }
}

/// The records after all scripts, and how long these took, by a thread for each but the first, whose
/// part the caller does.
fn run_shared<T: Shared>(records: Vec<Tally>, scripts: &[Vec<Request>]) -> (Vec<Tally>, Duration) {
    let table = T::new(records);
    let begun = Instant::now();
    let replies: Vec<Vec<Reply>> = thread::scope(|scope| {
        let work = |script: &[Request]| -> Vec<Reply> {
            script.iter().map(|one| table.perform(*one)).collect()
        };
        let (first, others) = scripts.split_first().expect("at least a worker");
        let started: Vec<_> = others
            .iter()
            .map(|script| scope.spawn(move || work(script)))
            .collect();
        let own = work(first);
        let joined = started.into_iter().map(|thread| thread.join());
        let replies = joined.map(|replies| replies.expect("no thread panics"));
        iter::once(own).chain(replies).collect()
    });
    let spent = begun.elapsed();
    drop(replies);
    (table.records(), spent)
}

const TURN: usize = 64;

/// The same by one thread, without locks.
fn run_alone(mut records: Vec<Tally>, scripts: &[Vec<Request>]) -> (Vec<Tally>, Duration) {
    let begun = Instant::now();
    let mut replies: Vec<Vec<Reply>> = scripts
        .iter()
        .map(|script| Vec::with_capacity(script.len()))
        .collect();
    let longest = scripts.iter().map(Vec::len).max().unwrap_or(0);
    for begin in (0..longest).step_by(TURN) {
        for (script, own) in scripts.iter().zip(&mut replies) {
            let turn = script.iter().skip(begin).take(TURN);
            own.extend(turn.map(|one| one.perform_at(&mut records)));
        }
    }
    let spent = begun.elapsed();
    drop(replies);
    (records, spent)
}

// ---- loads

struct Draws(u64);

impl Draws {
    /// SplitMix64.
    fn next(&mut self) -> u64 {
        self.0 = self.0.wrapping_add(0x9e37_79b9_7f4a_7c15);
        let mut word = self.0;
        word = (word ^ (word >> 30)).wrapping_mul(0xbf58_476d_1ce4_e5b9);
        word = (word ^ (word >> 27)).wrapping_mul(0x94d0_49bb_1331_11eb);
        word ^ (word >> 31)
    }

    fn below(&mut self, end: u32) -> u32 {
        (self.next() % u64::from(end)) as u32
    }

    fn rank(&mut self, popularity: &Popularity) -> u32 {
        popularity.rank_of(self.next())
    }
}

/// Zipf's law by sums of whole weights; none where all ranks are alike.
struct Popularity {
    sums: Vec<u64>,
    count: u32,
}

impl Popularity {
    fn new(count: u32, skew: u32) -> Popularity {
        let weights = (1..=count).map(|rank| weight_of(rank, skew));
        let sums = weights.scan(0, |sum, weight| {
            *sum += weight;
            Some(*sum)
        });
        Popularity {
            sums: if skew > 0 { sums.collect() } else { Vec::new() },
            count,
        }
    }

    fn rank_of(&self, number: u64) -> u32 {
        match self.sums.last() {
            Some(total) => self.sums.partition_point(|sum| *sum <= number % total) as u32,
            None => (number % u64::from(self.count)) as u32,
        }
    }
}

/// 2^40 divided by the rank to the power of the skew, at least 1.
fn weight_of(rank: u32, skew: u32) -> u64 {
    let log = log_of(rank).wrapping_mul(u64::from(skew)) / 100;
    let weight = half_to(log & 0xFF_FFFF).wrapping_mul(256) >> ((log >> 24) & 63);
    weight.clamp(1, 1 << 40)
}

/// The logarithm to the base 2, with 24 fractional bits, by squaring.
fn log_of(number: u32) -> u64 {
    let whole = number.ilog2();
    let mut mantissa = u64::from(number) << (31 - whole);
    let mut log = u64::from(whole);
    for _ in 0..24 {
        mantissa = mantissa.wrapping_mul(mantissa) >> 31;
        let bit = mantissa >> 32 & 1;
        mantissa >>= bit;
        log = log * 2 | bit;
    }
    log
}

/// The roots 2^(-1/2), 2^(-1/4), .. of a half, with 32 fractional bits.
const ROOTS: [u64; 24] = [
    3037000499, 3611622602, 3938502375, 4112874773, 4202935003, 4248701964, 4271771996, 4283353945,
    4289156690, 4292061009, 4293513906, 4294240539, 4294603902, 4294785595, 4294876444, 4294921870,
    4294944583, 4294955939, 4294961617, 4294964456, 4294965876, 4294966586, 4294966941, 4294967118,
];

/// Two to the power of minus a fraction with 24 bits; the result has 32 fractional bits.
fn half_to(fraction: u64) -> u64 {
    let bits = ROOTS.iter().enumerate();
    let set = bits.filter(|(place, _)| fraction >> (23 - place) & 1 == 1);
    set.fold(1 << 32, |power: u64, (_, root)| power * root >> 32)
}

struct Options {
    mode: String,
    workers: u32,
    requests: u32,
    skew: u32,
    views: u32,
    users: u32,
    pages: u32,
}

impl Options {
    fn of_words(words: impl Iterator<Item = String>) -> Option<Options> {
        let mut options = Options {
            mode: String::new(),
            workers: 1,
            requests: 480_000,
            skew: 100,
            views: 10,
            users: 1000,
            pages: 1000,
        };
        for word in words {
            let (name, value) = word.split_once('=')?;
            match name {
                "--mode" => options.mode = value.to_string(),
                _ => *options.number_of(name)? = value.parse().ok()?,
            }
        }
        (options.workers > 0).then_some(options)
    }

    fn number_of(&mut self, name: &str) -> Option<&mut u32> {
        match name {
            "--workers" => Some(&mut self.workers),
            "--requests" => Some(&mut self.requests),
            "--skew" => Some(&mut self.skew),
            "--views" => Some(&mut self.views),
            "--users" => Some(&mut self.users),
            "--pages" => Some(&mut self.pages),
            _ => None,
        }
    }

    /// A script for each worker.
    fn scripts(&self) -> Vec<Vec<Request>> {
        let pages = Popularity::new(self.pages, self.skew);
        let each = u64::from(self.requests / self.workers);
        let mut draws = Draws(1);
        let mut drawn = |time| {
            let user = draws.below(self.users);
            let page = self.users + draws.rank(&pages);
            let kind = if draws.below(100) < self.views {
                Kind::View
            } else {
                Kind::Like { time }
            };
            Request { user, page, kind }
        };
        (0..self.workers)
            .map(|_| (0..each).map(&mut drawn).collect())
            .collect()
    }

    /// The records after all scripts, and how long these took.
    fn run(&self, scripts: &[Vec<Request>]) -> (Vec<Tally>, Duration) {
        let none = Tally {
            likes: 0,
            last: None,
        };
        let records = vec![none; (self.users + self.pages) as usize];
        match self.mode.as_str() {
            "records" => run_shared::<RecordLocks>(records, scripts),
            "lock" => run_shared::<OneLock>(records, scripts),
            "alone" => run_alone(records, scripts),
            _ => stop(),
        }
    }
}

/// Writes one script after the other.
fn draw(scripts: &[Vec<Request>]) -> io::Result<()> {
    let mut output = BufWriter::new(io::stdout().lock());
    for (worker, script) in scripts.iter().enumerate() {
        for Request { user, page, kind } in script {
            match kind {
                Kind::Like { time } => writeln!(output, "{worker},like,{user},{page},{time}")?,
                Kind::View => writeln!(output, "{worker},view,{user},{page}")?,
            }
        }
    }
    output.flush()
}

fn stop() -> ! {
    eprintln!("usage: {USAGE}");
    std::process::exit(1)
}

fn main() -> io::Result<()> {
    let options = Options::of_words(std::env::args().skip(1)).unwrap_or_else(|| stop());
    let scripts = options.scripts();
    if options.mode == "draw" {
        return draw(&scripts);
    }
    let (tallies, spent) = options.run(&scripts);
    let requests: usize = scripts.iter().map(Vec::len).sum();
    let sum: u64 = (0..)
        .zip(&tallies)
        .map(|(number, page)| number * page.likes)
        .sum();
    println!("{requests} requests: {spent:?}, sum {sum}");
    Ok(())
}
