//! `law_test` passes an application whose laws hold, and names the law that a wrong one breaks; what else finds it.
#![forbid(unsafe_code)]
use fundreivo::engine::{Application, Fault, Few, HistoryFault, HistoryLine, Policy, Scripts, check_history, run};
use fundreivo::law_test::{Dice, Drawn, law_test};
use std::sync::atomic::{AtomicU64, Ordering::Relaxed};

// How many requests were decided: an application must not look at such a thing.
static DONE: AtomicU64 = AtomicU64::new(0);

/// Stocks: what was put in counts, and there is room for so much. `WRONG` says what is wrong with it.
struct Stocks<const WRONG: u8>;

// Of a slice that counts acts in its upper half.
const ONE_TAKEN: u64 = 1 << 32;

#[derive(Clone, Copy, Debug, PartialEq)]
struct Stock {
    held: u64,
    room: u64,
}
#[derive(Clone, Copy, Debug)]
enum Ask {
    Put(u32, u64),
    Move(u32, u32, u64),
}

impl<const WRONG: u8> Application for Stocks<WRONG> {
    type Record = Stock;
    type Slice = u64;
    type Look = Stock;
    type Request = Ask;
    type Reply = bool;
    type Act = i64;
    fn keys(ask: &Ask) -> Few<u32> {
        match *ask {
            Ask::Put(key, _) if WRONG == 8 => Few::from_iter([key + 1]),
            Ask::Put(key, _) => Few::from_iter([key]),
            Ask::Move(from, _, _) if WRONG == 6 => Few::from_iter([from]),
            Ask::Move(from, to, _) => Few::from_iter([from, to]),
        }
    }
    fn look(held: &Stock) -> Stock {
        *held
    }
    fn decide(ask: &Ask, looks: &[Stock]) -> (bool, Few<i64>) {
        let done = DONE.fetch_add(1, Relaxed);
        match *ask {
            Ask::Put(_, more) if more > looks[0].room => (false, Few::new()),
            Ask::Put(_, _) if WRONG == 1 && looks[0].held > 50 => (false, Few::new()),
            Ask::Put(_, more) => (true, Few::from_iter([more as i64])),
            Ask::Move(_, _, _) if WRONG == 7 && done % 3 == 0 => (false, Few::new()),
            Ask::Move(_, _, sum) if looks[0].held < sum => (false, Few::new()),
            Ask::Move(_, _, sum) => (true, Few::from_iter([-(sum as i64), sum as i64])),
        }
    }
    fn splits(ask: &Ask) -> bool {
        matches!(ask, Ask::Put(..))
    }
    fn apply(stock: &mut Stock, act: i64) {
        match WRONG {
            2 => stock.held = act as u64,
            3 => *stock = Stock { held: stock.held + act as u64, room: stock.room.saturating_sub(1) },
            _ => stock.held = stock.held.wrapping_add_signed(act),
        }
    }
    fn empty_slice() -> u64 {
        u64::from(WRONG == 4)
    }
    fn apply_to_slice(slice: &mut u64, act: i64) {
        match WRONG {
            2 => *slice = act as u64 + 1,
            3 => *slice += act as u64 + ONE_TAKEN,
            5 => *slice = (*slice).max(act as u64),
            _ => *slice = slice.wrapping_add_signed(act),
        }
    }
    fn merge(stock: &mut Stock, slice: u64) {
        match WRONG {
            2 if slice > 0 => stock.held = slice - 1,
            3 => {
                *stock =
                    Stock { held: stock.held + slice % ONE_TAKEN, room: stock.room.saturating_sub(slice / ONE_TAKEN) }
            }
            _ => stock.held += slice,
        }
    }
}
impl<const WRONG: u8> Drawn for Stocks<WRONG> {
    fn draw_record(dice: &mut Dice) -> Stock {
        Stock { held: dice.below(100), room: dice.below(100) }
    }
    fn draw_request(dice: &mut Dice, records: u32) -> Ask {
        let [from, to] = [(); 2].map(|()| dice.below(records.into()) as u32);
        match dice.below(4) {
            0 => Ask::Move(from, to, dice.below(100)),
            _ => Ask::Put(to, dice.below(100)),
        }
    }
}

fn broken<const WRONG: u8>() -> &'static str {
    law_test::<Stocks<WRONG>>(1_000, 7).map_or_else(|fault| fault.law, |()| "none")
}

#[test]
fn laws_are_named_that_do_not_hold() {
    assert_eq!(broken::<0>(), "none");
    assert_eq!(broken::<1>(), "decides_after_acts", "what is put in decides");
    assert_eq!(broken::<2>(), "commute", "the last act wins");
    assert_eq!(broken::<3>(), "decides_after_acts", "acts take room");
    assert_eq!(broken::<4>(), "merge_nothing", "a slice begins with 1");
    assert_eq!(broken::<5>(), "merge_one_more", "a slice keeps the greatest act");
    assert_eq!(broken::<6>(), "acts_have_keys", "a move names one stock and acts on two");
    assert_eq!(broken::<7>(), "decides_again", "a count decides");
    assert_eq!(broken::<8>(), "keys_are_there", "a key past the table");
}

const POLICY: Policy = Policy { joined_quota: 8, split_quota: 64, rounds: 20, threshold: 2 };

#[test]
fn the_referee_finds_what_the_laws_would() {
    fn sum<const WRONG: u8>() -> (u64, bool) {
        let script = |worker| (0..500).map(move |n| Ask::Put(0, put(worker, n))).collect();
        let table = vec![Stock { held: 0, room: 100 }];
        let scripts = Scripts::<Stocks<WRONG>>::new((0..4).map(script).collect(), 1).unwrap();
        let outcome = run(table.clone(), &scripts, POLICY).unwrap();
        let replayed = check_history(table, &scripts, &outcome.history.lines()).unwrap();
        (outcome.table[0].held, replayed == outcome.table)
    }
    fn put(worker: u64, n: u64) -> u64 {
        1 + (worker + n) % 3
    }
    let wanted = (0..4).flat_map(|worker| (0..500).map(move |n| put(worker, n))).sum();
    assert_eq!(sum::<0>(), (wanted, true));
    assert!(!sum::<5>().1);
}

#[test]
fn more_acts_than_keys_are_refused() {
    let table = vec![Stock { held: 100, room: 0 }; 2];
    let script = vec![Ask::Put(0, 0), Ask::Move(0, 1, 5)];
    let scripts = Scripts::<Stocks<6>>::new(vec![vec![], script], 2).unwrap();
    assert_eq!(run(table.clone(), &scripts, POLICY).err(), Some(Fault::Acts { worker: 1, index: 1 }));
    let lines = [0, 1].map(|index| HistoryLine { worker: 1, index, reply: true });
    assert_eq!(check_history(table, &scripts, &lines), Err(Fault::History(HistoryFault::Wrong(1))));
}
