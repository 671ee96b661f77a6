use fundreivo::engine::{Application, Few, POLICY, Scripts, check_history, run};
use fundreivo::law_test::{Dice, Drawn, law_test};

/// Adds an amount to a counter, or moves it from one to another.
#[derive(Clone, Copy, Debug)]
enum Ask {
    Add(u32, u32),
    Move(u32, u32, u32),
}
use Ask::{Add, Move};

struct Counters;
impl Application for Counters {
    type Record = u64;
    type Slice = u64;
    type Look = u64;
    type Request = Ask;
    type Reply = bool;
    type Act = i64;
    fn keys(ask: &Ask) -> Few<u32> {
        match *ask {
            Add(to, _) => Few::from_iter([to]),
            Move(from, to, _) => Few::from_iter([from, to]),
        }
    }
    fn look(sum: &u64) -> u64 {
        *sum
    }
    // Whether it is done, and what is added at each of its keys.
    fn decide(ask: &Ask, sums: &[u64]) -> (bool, Few<i64>) {
        match *ask {
            Add(_, amount) => (true, Few::from_iter([amount.into()])),
            Move(_, _, amount) if sums[0] < amount.into() => (false, Few::new()),
            Move(_, _, amount) => (true, Few::from_iter([-i64::from(amount), amount.into()])),
        }
    }
    // An addition looks at nothing, so each worker can do it on a slice of its own.
    fn splits(ask: &Ask) -> bool {
        matches!(ask, Add(..))
    }
    fn apply(sum: &mut u64, added: i64) {
        *sum = sum.wrapping_add_signed(added)
    }
    fn empty_slice() -> u64 {
        0
    }
    fn apply_to_slice(slice: &mut u64, added: i64) {
        Self::apply(slice, added)
    }
    fn merge(sum: &mut u64, slice: u64) {
        *sum += slice
    }
}
impl Drawn for Counters {
    fn draw_record(dice: &mut Dice) -> u64 {
        dice.below(100)
    }
    fn draw_request(dice: &mut Dice, counters: u32) -> Ask {
        let [from, to, amount] = [counters, counters, 100].map(|bound| dice.below(bound.into()) as u32);
        if amount % 2 == 0 { Add(to, amount) } else { Move(from, to, amount) }
    }
}

fn main() -> Result<(), Box<dyn std::error::Error>> {
    law_test::<Counters>(1_000, 1)?;
    let scripts = vec![vec![Add(0, 1); 100_000], vec![Add(0, 1); 100_000], vec![Move(0, 1, 50); 1_000]];
    let scripts = Scripts::<Counters>::new(scripts, 2)?;
    let outcome = run(vec![0, 0], &scripts, POLICY)?;
    let judged = check_history(vec![0, 0], &scripts, &outcome.history.lines())?;
    assert_eq!(judged, outcome.table);
    println!("{} in both counters", outcome.table.iter().sum::<u64>());
    Ok(())
}
