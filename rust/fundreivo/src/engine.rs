//! Transactions of your own: runs, a referee for their histories, windows, and a log.
//!
//! Implement [`Application`]: what a request names, sees, decides and does. Test it by
//! [`law_test`](crate::law_test::law_test), and by [`check_history`] on histories of your own.
use crate::application::Engine;
use kit::alloc::Global;
use kit::rt::HostRuntime;
use kit::vec::Vec as List;
use part_log::{FileLog, NamedFile};
use std::marker::PhantomData;
use thiserror::Error;

pub use crate::application::{Application, Few, Loggable, MOST_KEYS};
pub use crate::windows::{Publisher, Window, WindowFault};
#[doc(inline)]
pub use application_check::{HistoryFault, HistoryLine};
#[doc(inline)]
pub use application_log::{CommitFault, MOST_LINES, OpenFault};
#[doc(inline)]
pub use application_window::{MakeFault, PublishFault, Seen};
#[doc(inline)]
pub use log_file::{LogCause, LogFileFault};
#[doc(inline)]
pub use split_engine::{Entry, MOST_COMMITS, Policy, RunFault, ScriptFault};

/// A policy to begin with: a key is split once a request that splits has named it in the joined phase before.
pub const POLICY: Policy = Policy { joined_quota: 64, split_quota: 16_384, rounds: usize::MAX, threshold: 1 };

/// A script for each worker, whose requests name keys of a table of so many records alone.
pub struct Scripts<A: Application> {
    lists: Vec<List<A::Request>>,
    records: usize,
}
impl<A: Application> Scripts<A> {
    /// Takes scripts that can be run over a table of so many records.
    pub fn new(scripts: Vec<Vec<A::Request>>, records: usize) -> Result<Scripts<A>, ScriptFault> {
        let lists: Vec<_> = scripts.into_iter().map(List::from).collect();
        split_engine::check_scripts::<Engine<A>>(&lists, records)?;
        Ok(Scripts { lists, records })
    }
}

/// Why a call gives no outcome.
#[derive(Clone, Copy, Debug, PartialEq, Eq, Error)]
pub enum Fault {
    /// The table has not as many records as the scripts were checked for.
    #[error("number of records")]
    Records,
    /// Both quotas are 0.
    #[error("both quotas are 0")]
    Quota,
    /// The request with this index of a worker's script decides on more acts than it names keys.
    #[error("worker {worker}, request {index}: more acts than keys")]
    Acts {
        /// Whose script it is.
        worker: u32,
        /// Its place there, from 0.
        index: u32,
    },
    /// There are 2^29 lines of a history, or more.
    #[error("more than 536870911 lines")]
    TooLong,
    /// The run failed.
    #[error("{0}")]
    Run(RunFault),
    /// The lines are no history.
    #[error("{0}")]
    History(HistoryFault),
}

/// All commits of a run, in the order in which they replay.
pub struct History<A: Application>(split_engine::History<A::Request, Option<A::Reply>>);
impl<A: Application> History<A> {
    // The engine's history, if each request has a reply.
    fn whole(history: split_engine::History<A::Request, Option<A::Reply>>) -> Result<History<A>, Fault> {
        match history.pieces().iter().flatten().find(|entry| entry.reply.is_none()) {
            Some(&Entry { worker, index, .. }) => Err(Fault::Acts { worker, index }),
            None => Ok(History(history)),
        }
    }
    /// The commits.
    pub fn iter(&self) -> impl Iterator<Item = Entry<A::Request, A::Reply>> {
        self.0.pieces().iter().flatten().map(|&Entry { worker, index, request, reply }| {
            let reply = reply.expect("a run that ended well");
            Entry { worker, index, request, reply }
        })
    }
    /// The commits as lines for [`check_history`].
    pub fn lines(&self) -> Vec<HistoryLine<A::Reply>> {
        self.iter().map(|Entry { worker, index, reply, .. }| HistoryLine { worker, index, reply }).collect()
    }
}
/// What a run gives.
pub struct Outcome<A: Application> {
    /// Its serial order.
    pub history: History<A>,
    /// The table after it.
    pub table: Vec<A::Record>,
}

/// Performs a script for each worker over a table. A request that decides on more acts than keys ends in a fault.
///
/// Each record has to be one that fewer than 2^31 acts can make, so that acts of yours which count do not overflow.
pub fn run<A: Application>(table: Vec<A::Record>, scripts: &Scripts<A>, policy: Policy) -> Result<Outcome<A>, Fault> {
    if table.len() != scripts.records {
        return Err(Fault::Records);
    }
    if policy.joined_quota == 0 && policy.split_quota == 0 {
        return Err(Fault::Quota);
    }
    let outcome = split_engine::run::<Engine<A>, _>(&HostRuntime, Global, table.into(), &scripts.lists, policy);
    let outcome = outcome.map_err(Fault::Run)?;
    Ok(Outcome { history: History::whole(outcome.history)?, table: outcome.table.into_std() })
}

/// The referee: judges a history on one thread, whoever made it. It has to replay from this table, with one line for
/// each request. Gives the table after it.
pub fn check_history<A: Application>(
    table: Vec<A::Record>,
    scripts: &Scripts<A>,
    lines: &[HistoryLine<A::Reply>],
) -> Result<Vec<A::Record>, Fault> {
    if table.len() != scripts.records {
        return Err(Fault::Records);
    }
    if lines.len() >= MOST_COMMITS {
        return Err(Fault::TooLong);
    }
    let told = |line: &HistoryLine<_>| HistoryLine { worker: line.worker, index: line.index, reply: Some(line.reply) };
    let lines: Vec<_> = lines.iter().map(told).collect();
    let mut table = List::from(table);
    let judged = application_check::check_history::<Engine<A>>(Global, &mut table, &scripts.lists, &lines);
    judged.map_err(Fault::History)?;
    Ok(table.into_std())
}

/// Why a log was not opened.
pub type LogFault = LogFileFault<OpenFault>;

/// Why a history was not logged. None of it may be told then.
#[derive(Debug, Error)]
pub enum PutFault {
    /// The line of this request has a line end, or is not read back as a request with that line. Nothing was logged.
    #[error("worker {worker}, request {index}: its line is not read back")]
    Line {
        /// Whose script it is of.
        worker: u32,
        /// Its place there, from 0.
        index: u32,
    },
    /// The lines were not put by.
    #[error("{0}")]
    Commit(CommitFault),
}

/// A log of commits in a file that no other program may have open. A reply may be told once its commit is logged.
pub struct Log<'a, A> {
    log: application_log::CommitLog<FileLog<NamedFile<'a, HostRuntime>>>,
    marker: PhantomData<fn() -> A>,
}
impl<'a, A: Loggable> Log<'a, A> {
    /// Opens a log, or makes it, and performs its lines on a table, which it gives. A last line that has no end was
    /// never acknowledged, and goes into the file of this name with `.cut`.
    pub fn open(path: &'a str, table: Vec<A::Record>) -> Result<(Log<'a, A>, Vec<A::Record>), LogFault> {
        let opened = application_log::open_log_file::<Engine<A>, _>(&HostRuntime, Global, path, table.into())?;
        Ok((Log { log: opened.log, marker: PhantomData }, opened.table.into_std()))
    }
    /// Puts the commits of a history by, all or none.
    pub fn put(&mut self, history: &History<A>) -> Result<(), PutFault> {
        for Entry { worker, index, request, .. } in history.iter() {
            let line = A::line(&request);
            let again = line.as_ref().map(|line| A::request(line).and_then(|request| A::line(&request)));
            if line.as_ref().is_some_and(|line| line.contains('\n')) || again.is_some_and(|again| again != line) {
                return Err(PutFault::Line { worker, index });
            }
        }
        self.log.log_commits::<Engine<A>>(&history.0).map_err(PutFault::Commit)
    }
}
