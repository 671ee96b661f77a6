//! A test of the laws on which runs of an application rest, by drawing: it finds faults, and proves nothing.
//!
//! In Rattle an application comes with proofs of these laws (`SplitLaws`), for all records, slices and acts.
use crate::engine::{Application, Few};
use std::fmt::Debug;
use thiserror::Error;

/// What is drawn: numbers that follow from a seed (SplitMix64: Steele, Lea, Flood, OOPSLA 2014).
pub struct Dice(u64);
impl Dice {
    /// What follows from a seed.
    pub fn new(seed: u64) -> Dice {
        Dice(seed)
    }
    /// A number below a bound, which is not 0.
    pub fn below(&mut self, bound: u64) -> u64 {
        self.0 = self.0.wrapping_add(0x9E37_79B9_7F4A_7C15);
        let mixed = (self.0 ^ (self.0 >> 30)).wrapping_mul(0xBF58_476D_1CE4_E5B9);
        let mixed = (mixed ^ (mixed >> 27)).wrapping_mul(0x94D0_49BB_1331_11EB);
        (mixed ^ (mixed >> 31)) % bound
    }
}

/// An application whose records and requests can be drawn: all kinds of them should come, and small numbers often.
pub trait Drawn:
    Application<Record: Clone + PartialEq + Debug, Request: Debug, Reply: Debug, Act: PartialEq + Debug>
{
    /// A record that runs may leave, far from the limits of its numbers.
    fn draw_record(dice: &mut Dice) -> Self::Record;
    /// A request that names keys below this number, which is at least 1.
    fn draw_request(dice: &mut Dice, records: u32) -> Self::Request;
}

/// A law that does not hold of what was drawn.
#[derive(Debug, PartialEq, Eq, Error)]
#[error("law {law}, round {round}: {shown}")]
pub struct LawFault {
    /// Its name:
    /// - `keys_are_there`: a request names keys of the table;
    /// - `acts_have_keys`: it decides on no more acts than it names keys;
    /// - `decides_again`: asked again, it decides alike;
    /// - `merge_nothing`: to merge an empty slice changes nothing;
    /// - `merge_one_more`: to merge a slice with one act more is to do that act after the merge;
    /// - `commute`: acts of requests that split leave the same record in both orders;
    /// - `decides_after_acts`: such acts do not change what a request that splits decides.
    pub law: &'static str,
    /// In which round, from 0.
    pub round: u32,
    /// What shows it.
    pub shown: String,
}

const MOST_RECORDS: u64 = 5;
const REQUESTS: u64 = 8;

// What a request is answered, and its acts, each with its key.
type Decided<A> = (<A as Application>::Reply, Vec<(usize, <A as Application>::Act)>);

fn after<A: Drawn>(record: &A::Record, acts: &[A::Act]) -> A::Record {
    let mut held = record.clone();
    acts.iter().for_each(|act| A::apply(&mut held, *act));
    held
}
fn merged<A: Drawn>(record: &A::Record, acts: &[A::Act]) -> A::Record {
    let (mut held, mut slice) = (record.clone(), A::empty_slice());
    acts.iter().for_each(|act| A::apply_to_slice(&mut slice, *act));
    A::merge(&mut held, slice);
    held
}

struct Round(u32);
impl Round {
    fn broken<T>(&self, law: &'static str, shown: String) -> Result<T, LawFault> {
        Err(LawFault { law, round: self.0, shown })
    }
    fn same<T: PartialEq + Debug>(&self, law: &'static str, of: &impl Debug, one: T, other: T) -> Result<(), LawFault> {
        if one == other {
            return Ok(());
        }
        self.broken(law, format!("{of:?}: {one:?} and {other:?}"))
    }

    fn decided<A: Drawn>(&self, table: &[A::Record], request: &A::Request) -> Result<Decided<A>, LawFault> {
        let keys: Few<usize> = A::keys(request).iter().map(|key| *key as usize).collect();
        let looks: Option<Few<_>> = keys.iter().map(|key| table.get(*key).map(A::look)).collect();
        let Some(looks) = looks else {
            return self.broken("keys_are_there", format!("{request:?}: keys {keys:?} of {} records", table.len()));
        };
        let (reply, acts) = A::decide(request, &looks);
        if acts.len() > keys.len() {
            return self.broken("acts_have_keys", format!("{request:?}: keys {keys:?}, acts {acts:?}"));
        }
        Ok((reply, keys.into_iter().zip(acts).collect()))
    }

    // Of the acts of requests that split at one record.
    fn acts_merge<A: Drawn>(&self, record: &A::Record, acts: &[A::Act]) -> Result<(), LawFault> {
        self.same("merge_nothing", record, merged::<A>(record, &[]), record.clone())?;
        for (place, act) in acts.iter().enumerate() {
            let one_more = after::<A>(&merged::<A>(record, &acts[..place]), &[*act]);
            self.same("merge_one_more", &(record, act), merged::<A>(record, &acts[..=place]), one_more)?;
            acts[..place].iter().try_for_each(|other| {
                let (one, two) = (after::<A>(record, &[*act, *other]), after::<A>(record, &[*other, *act]));
                self.same("commute", &(record, act, other), one, two)
            })?;
        }
        Ok(())
    }

    fn laws<A: Drawn>(&self, dice: &mut Dice) -> Result<(), LawFault> {
        let table: Vec<_> = (0..=dice.below(MOST_RECORDS)).map(|_| A::draw_record(dice)).collect();
        let decided = |_| {
            let request = A::draw_request(dice, table.len() as u32);
            self.decided::<A>(&table, &request).map(|decided| (request, decided))
        };
        let all: Vec<_> = (0..REQUESTS).map(decided).collect::<Result<_, _>>()?;
        all.iter().try_for_each(|(request, first)| {
            self.same("decides_again", request, &self.decided::<A>(&table, request)?, first)
        })?;
        let split: Vec<_> = all.into_iter().filter(|(request, _)| A::splits(request)).collect();
        table.iter().enumerate().try_for_each(|(key, record)| {
            let acts = split.iter().flat_map(|(_, (_, acts))| acts).filter(|(at, _)| *at == key);
            self.acts_merge::<A>(record, &acts.map(|(_, act)| *act).collect::<Vec<_>>())
        })?;
        split.iter().try_for_each(|(_, (_, acts))| {
            let mut left = table.clone();
            acts.iter().for_each(|(key, act)| A::apply(&mut left[*key], *act));
            split.iter().try_for_each(|(request, before)| {
                self.same("decides_after_acts", request, &self.decided::<A>(&left, request)?, before)
            })
        })
    }
}

/// Draws tables and requests, in so many rounds, and looks whether each law holds of them; the error is the first that
/// does not. The same seed draws the same.
pub fn law_test<A: Drawn>(rounds: u32, seed: u64) -> Result<(), LawFault> {
    let mut dice = Dice(seed);
    (0..rounds).try_for_each(|round| Round(round).laws::<A>(&mut dice))
}
