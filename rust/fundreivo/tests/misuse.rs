//! Misuses of each call, drawn at random, end in errors or panics. Under a sanitizer (rust/sanitize.sh) they show that
//! none is undefined behaviour.
#![forbid(unsafe_code)]
use fundreivo::auction::{self, ItemId, Opened, Opening, OpeningBook, Request, read_scripts, run_watched};
use fundreivo::engine::*;
use fundreivo::law_test::Dice;
use std::iter::repeat_n;
use std::panic::{AssertUnwindSafe, catch_unwind, panic_any};
use std::sync::atomic::{AtomicU64, Ordering::Relaxed};

// How an application is wrong in this misuse, and what it was asked so far.
static WRONG: AtomicU64 = AtomicU64::new(0);
static ASKED: AtomicU64 = AtomicU64::new(0);
fn sometimes(wrong: u64) -> bool {
    WRONG.load(Relaxed) == wrong && ASKED.fetch_add(1, Relaxed) % 97 == 96
}

/// Sums whose functions panic, or answer otherwise than before.
struct Sums;
impl Application for Sums {
    type Record = Vec<u64>;
    type Slice = Box<u64>;
    type Look = u64;
    type Request = u32;
    type Reply = u64;
    type Act = u64;
    fn keys(request: &u32) -> Few<u32> {
        if sometimes(1) { Few::from_iter([u32::MAX, *request]) } else { Few::from_iter([*request]) }
    }
    fn look(held: &Vec<u64>) -> u64 {
        held[0]
    }
    fn decide(_: &u32, looks: &[u64]) -> (u64, Few<u64>) {
        if sometimes(2) {
            panic_any("in decide");
        }
        let acts = if sometimes(3) { 5 } else { 1 + usize::from(sometimes(11)) };
        (looks[if sometimes(4) { 9 } else { 0 }], repeat_n(1, acts).collect())
    }
    fn splits(_: &u32) -> bool {
        !sometimes(5)
    }
    fn apply(held: &mut Vec<u64>, act: u64) {
        held[if sometimes(6) { 1 } else { 0 }] += act
    }
    fn empty_slice() -> Box<u64> {
        Box::new(0)
    }
    fn apply_to_slice(slice: &mut Box<u64>, act: u64) {
        if sometimes(7) {
            panic_any("in apply_to_slice");
        }
        **slice += act
    }
    fn merge(held: &mut Vec<u64>, slice: Box<u64>) {
        held[if sometimes(8) { 2 } else { 0 }] += *slice
    }
}
impl Loggable for Sums {
    fn line(request: &u32) -> Option<String> {
        (*request > 0).then(|| if sometimes(9) { "\n" } else { "x" }.into())
    }
    fn request(_: &str) -> Option<u32> {
        Some(3)
    }
    fn may_be_cut(_: &str) -> bool {
        !sometimes(10)
    }
}

fn odd(dice: &mut Dice) -> u64 {
    [0, 1, 2, 3, 16, 17, 64, 65, 1 << 31, u32::MAX as u64, u64::MAX][dice.below(11) as usize]
}

/// A run of the engine with a policy, keys and a table that may not fit, over an application that is wrong.
fn engine(dice: &mut Dice) -> Result<(), String> {
    let records = 1 + dice.below(4);
    let keys = records + u64::from(dice.below(9) == 0);
    let script = |dice: &mut Dice| (0..400).map(|_| dice.below(keys) as u32).collect();
    let scripts = (0..1 + dice.below(8)).map(|_| script(dice)).collect();
    let table = vec![vec![0]; (records + dice.below(20) / 19) as usize];
    let scripts = Scripts::<Sums>::new(scripts, records as usize).map_err(|why| why.to_string())?;
    let quota = |dice: &mut Dice| if dice.below(4) == 0 { odd(dice) as usize } else { 50 };
    let policy =
        Policy { joined_quota: quota(dice), split_quota: quota(dice), rounds: 20, threshold: odd(dice) as u32 };
    let outcome = run(table.clone(), &scripts, policy).map_err(|why| why.to_string())?;
    let mut lines = outcome.history.lines();
    lines.swap_remove(0).worker = odd(dice) as u32;
    let path = std::env::temp_dir().join(format!("fundreivo_misuse_{}", std::process::id()));
    let name = path.to_str().unwrap_or("");
    let logged = Log::<Sums>::open(name, table.clone()).map(|(mut log, _)| log.put(&outcome.history));
    let twice = Log::<Sums>::open(name, vec![]);
    let _ = std::fs::remove_file(&path);
    logged.map_err(|why| why.to_string())?.map_err(|why| why.to_string())?;
    twice.map_err(|why| why.to_string())?;
    check_history(table, &scripts, &lines).map(|_| ()).map_err(|why| why.to_string())
}

fn part(requests: Vec<u32>) -> Vec<Entry<u32, u64>> {
    requests.into_iter().map(|request| Entry { worker: request, index: 0, request, reply: 0 }).collect()
}

/// Windows that are too many or outlive what they show, and parts that name what is not there, of an application that
/// is wrong.
fn windows(dice: &mut Dice) -> Result<(), String> {
    let count = [0, 1, 3, 8][dice.below(4) as usize];
    let (publisher, windows) = Publisher::<Sums>::new(vec![vec![1], vec![2]], count).map_err(|why| why.to_string())?;
    std::thread::scope(move |scope| {
        // It is let go here, whatever ends this: then the windows show nothing.
        let mut publisher = publisher;
        for mut window in windows {
            let key = dice.below(4) as u32;
            scope.spawn(move || {
                while window.look(key).is_ok_and(|seen| seen.is_some()) {
                    std::thread::yield_now();
                }
            });
        }
        for _ in 0..20 {
            let request = if dice.below(40) == 0 { odd(dice) as u32 } else { dice.below(2) as u32 };
            let part = part(vec![request; dice.below(9) as usize]);
            let published = catch_unwind(AssertUnwindSafe(|| publisher.publish(part)));
            published.map_err(|_| "a panic in publish")?.map_err(|why| why.to_string())?;
        }
        drop(publisher);
        Err("no window shows anything".into())
    })
}

fn wild(dice: &mut Dice) -> Request {
    let item = ItemId { worker: dice.below(3) as u32, serial: odd(dice) as u32 };
    match dice.below(4) {
        0 => Request::StoreBid { bidder: odd(dice) as u32, item, amount: odd(dice), time: odd(dice) },
        1 => Request::ViewCategory { category: odd(dice) as u32 },
        2 => Request::ViewUser { user: dice.below(3) as u32 },
        _ => Request::ViewItem { item },
    }
}

/// A run of the auction with wild requests, rows, workers and policy, which a thread watches that may panic.
fn watched(dice: &mut Dice) -> Result<(), String> {
    // More would be memory that the machine may have.
    let opening = Opening { users: odd(dice) as u32 % 70_000, categories: odd(dice) as u32 % 70_000 };
    let rows = (0..dice.below(2)).map(|_| Opened { worker: odd(dice) as u32, request: wild(dice) }).collect();
    let book = OpeningBook::new(opening, rows).map_err(|why| why.to_string())?;
    let scripts = (0..dice.below(20)).map(|_| (0..300).map(|_| wild(dice)).collect()).collect();
    let mut policy = auction::Policy::for_throughput(odd(dice) as u32);
    match dice.below(6) {
        0 => policy.shards = odd(dice) as u32,
        1 => policy.joined_quota = odd(dice) as u32,
        2 => policy.hot_max = odd(dice) as u32,
        _ => {}
    }
    let (count, panics) = (1 + dice.below(17) as u32, dice.below(3) == 0);
    let watch = |mut windows: Vec<auction::Window>| {
        while let Ok(Some(_)) = windows[0].view(Request::ViewUser { user: 0 }) {
            if panics {
                panic_any("in a watcher");
            }
            std::thread::yield_now();
        }
    };
    let (outcome, ()) = run_watched(&book, scripts, policy, count, watch).map_err(|why| why.to_string())?;
    let more = outcome.state.run(vec![vec![wild(dice)]; dice.below(3) as usize], auction::Policy::for_throughput(3));
    more.map(|_| ()).map_err(|why| format!("{why:?}"))
}

/// Inputs of any bytes, and words that are no options.
fn texts(dice: &mut Dice) -> Result<(), String> {
    let bytes: Vec<u8> = (0..dice.below(200)).map(|_| b"0,1.+item\"bid\n-\xff\0"[dice.below(16) as usize]).collect();
    let word = ["--workers", "--rows", "--live", "9", "", "\0", "--hot"][dice.below(7) as usize];
    auction::perform(&[word], &bytes[..], &mut std::io::sink()).map_err(|why| why.to_string())?;
    read_scripts(&bytes[..], odd(dice) as u32).map(|_| ()).map_err(|why| why.to_string())
}

/// A panic in a publish or in a view comes back there, and windows show what they showed.
fn panics_come_back(wrong: u64) {
    let panics = |call: &mut dyn FnMut()| assert!(catch_unwind(AssertUnwindSafe(call)).is_err());
    WRONG.store(wrong, Relaxed);
    ASKED.store(0, Relaxed);
    let (mut publisher, mut windows) = Publisher::<Sums>::new(vec![vec![0]; 2], 1).unwrap();
    publisher.publish(part(vec![0; 10])).unwrap();
    panics(&mut || publisher.publish(part([0, 1].repeat(50))).unwrap());
    assert_eq!(publisher.publish(part(vec![0])), Err(WindowFault::Panicked));
    ASKED.store(96, Relaxed);
    if wrong == 2 {
        panics(&mut || assert!(windows[0].answer(0).is_err()));
    }
    assert_eq!(windows[0].look(0), Ok(Some(Seen { commits: 10, value: 10 })));
    drop(publisher);
    assert_eq!(windows[0].look(0), Err(WindowFault::Ended));
}

#[test]
fn misuses_end_in_errors_or_panics() {
    // In `decide`, and in `apply`.
    [2, 6].map(panics_come_back);
    std::panic::set_hook(Box::new(|_| {}));
    let mut dice = Dice::new(11);
    let (mut errors, mut panics, mut right) = (0, 0, 0);
    for round in 0..200 {
        WRONG.store(dice.below(12), Relaxed);
        let misuse = [engine, windows, watched, texts][round % 4];
        match catch_unwind(AssertUnwindSafe(|| misuse(&mut dice))) {
            Ok(Ok(())) => right += 1,
            Ok(Err(_)) => errors += 1,
            Err(_) => panics += 1,
        }
    }
    let _ = std::panic::take_hook();
    println!("{errors} errors, {panics} panics, {right} that were right");
    assert!(errors > 100 && panics > 5, "{errors} errors, {panics} panics");
}
