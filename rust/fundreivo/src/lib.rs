//! Transactions on busy records by *phase reconciliation* (Doppel: Narula et al., OSDI 2014).
//!
//! Workers perform scripts of requests in *joined* phases, where records are shared, and in *split*
//! phases, where each worker has a *slice* of its own of every hot record; the slices are merged
//! when the phase ends. A run leaves its **history**: one serial order that explains each reply.
//!
//! - [`engine`] runs transactions of your own, each on up to four records.
//! - [`law_test`] tests what the engine asks of them.
//! - [`auction`] is the auction of RUBiS: items, bids, comments, purchases and views.
//!
//! # Transactions of your own
//!
//! Two workers add to one counter, and a third moves amounts to another. Additions split, moves do not.
//! This is `examples/counters.rs`: `cargo run --example counters -p fundreivo`.
//!
//! ```
#![doc = include_str!("../examples/counters.rs")]
//! ```
//!
//! # An auction
//!
//! ```
//! use fundreivo::auction::{Facts, ItemId, Name, OpeningBook, Opening, Policy, Quantity, Reply, Request, run};
//!
//! let name = Name::new(b"Vase").unwrap();
//! let quantity = Quantity::new(1).unwrap();
//! let vase = Facts { seller: 0, category: 0, name, start: 10, closes: 1_000, quantity };
//! let item = ItemId { worker: 0, serial: 0 };
//! let bid = |bidder, amount| Request::StoreBid { bidder, item, amount, time: 5 };
//!
//! let book = OpeningBook::empty(Opening { users: 3, categories: 1 });
//! let first = vec![Request::StoreItem { facts: vase, time: 1 }, bid(1, 20), bid(1, 25)];
//! let second = vec![Request::ViewUser { user: 2 }];
//! let outcome = run(&book, vec![first, second], Policy::for_throughput(2))?;
//!
//! assert_eq!(outcome.history.len(), 4);
//! let Some(Reply::ItemSeen { highest, .. }) = outcome.state.view(&Request::ViewItem { item }) else { panic!() };
//! assert_eq!(highest, Some(25));
//! # Ok::<(), fundreivo::auction::RunFault>(())
//! ```
//!
//! # What is proved, and what is not
//!
//! The crates below this one are written in Rattle, Rust with contracts, and proved there. Here is
//! the same text without contracts, compiled by rustc over a library of its own: tested to be the
//! same program, not proved. Nor is this crate. A *Contract* on a page is what is proved there.
//!
//! Of an application of yours nothing is proved. [`law_test`] looks for faults in its laws, and
//! [`engine::check_history`] shows of one history that it replays on one thread. That numbers of
//! yours do not overflow is yours to see.
//!
//! **The crates below trust their callers**: nothing looks at what a `requires` asks, and where one
//! guards a slot that threads share, breaking it is undefined behaviour without a word of `unsafe`.
//! So none of their functions can be called through this crate. It has no `unsafe`, and ends misuse
//! in an error or a panic. A panic of an application comes back as a panic of the call that led
//! there, whatever the thread.
#![forbid(unsafe_code)]
#![deny(missing_docs)]

mod application;
pub mod auction;
pub mod engine;
pub mod law_test;
mod windows;
