//! The auction: runs of workers' scripts, the texts of inputs and replies, and windows.
use auction_program::UsageFault;
use auction_run::{FreeGate, WindowBoard};
use auction_window::{PhaseLog, Publisher};
use kit::alloc::Global;
use kit::marker::Brand;
use kit::rt::HostRuntime;
use kit::vec::Vec as List;
use std::fmt;
use std::io::{Read, Write};
use thiserror::Error;

#[doc(inline)]
pub use auction_rows::{
    BidEntry, BidId, BidRow, BidShown, BuyId, BuyRow, CommentId, CommentRow, Entry, Facts, ItemEntry, ItemId, ItemRow,
    ItemShown, MOST_HOT, MOST_OF_A_WORKER, MOST_SHARDS, MOST_WORKERS, Name, Object, Opened, Opening, Policy, Quantity,
    Refusal, Reply, Request, Row, Stars, Ten,
};
#[doc(inline)]
pub use auction_run::RunFault;
#[doc(inline)]
pub use auction_text::{ReadFault, WriteFault};
#[doc(inline)]
pub use auction_window::{MakeFault, NoGuard, Seen};
#[doc(inline)]
pub use item_shards::ResumeFault;

/// The rows that an auction is opened with.
pub struct OpeningBook(item_shards::OpeningBook);
impl OpeningBook {
    /// A book with no rows.
    pub fn empty(opening: Opening) -> OpeningBook {
        OpeningBook(item_shards::OpeningBook::empty(opening))
    }
    /// A book of these stores, each of which has to be accepted at its place. Stars as of [`run`].
    pub fn new(opening: Opening, stores: Vec<Opened>) -> Result<OpeningBook, ResumeFault> {
        stores.iter().for_each(|store| check_stars(&store.request));
        item_shards::OpeningBook::new(Global, opening, stores.into()).map(OpeningBook)
    }
    /// Its rows.
    pub fn rows(&self) -> &[Row] {
        self.0.rows()
    }
}

/// Reads an input in the format of the programs: the stores that open the auction, and a script for each worker.
pub fn read_scripts(input: impl Read, workers: u32) -> Result<(Vec<Opened>, Vec<Vec<Request>>), ReadFault> {
    let found = auction_text::read_scripts(Global, input, workers)?;
    Ok((found.rows.into_std(), found.scripts.into_iter().map(List::into_std).collect()))
}

/// All commits of a run, in the order in which they replay.
pub struct History(worker_journals::History);
impl History {
    /// How many they are.
    pub fn len(&self) -> usize {
        self.0.len()
    }
    /// Whether there is none.
    pub fn is_empty(&self) -> bool {
        self.0.is_empty()
    }
    /// The commits.
    pub fn iter(&self) -> impl Iterator<Item = Entry> + '_ {
        self.0.iter().map(|entry| entry.to_entry())
    }
    /// Writes the reply of each request, worker by worker in the order of the script.
    pub fn write_replies(&self, writer: &mut impl Write) -> Result<(), WriteFault> {
        auction_text::write_replies(Global, writer, &self.0)
    }
    /// Writes a line for each commit, in order.
    pub fn write_history(&self, writer: &mut impl Write) -> Result<(), WriteFault> {
        auction_text::write_history(writer, &self.0)
    }
    /// Writes the rows of the book that the run was opened with, and those that it added.
    pub fn write_rows(&self, writer: &mut impl Write, book: &OpeningBook) -> Result<(), WriteFault> {
        auction_text::write_rows(Global, writer, book.rows(), &self.0)
    }
}

/// The auction that a run leaves.
pub struct State(auction_program::Joined);
impl State {
    /// The reply that a view would have now; `None` of what is no view.
    pub fn view(&self, view: &Request) -> Option<Reply> {
        self.0.view(view)
    }
    /// Goes on: performs scripts of its workers, as `run` does. Its policy has to have as many shards as the first one.
    pub fn run(self, scripts: Vec<Vec<Request>>, policy: Policy) -> Result<Outcome, Stopped> {
        let outcome = auction_run::run_on(&HostRuntime, Global, self.0, lists(scripts), policy, &FreeGate);
        outcome.map(Outcome::of).map_err(|stopped| match stopped {
            auction_run::Stopped::Refused(state, fault) => Stopped { state: Some(State(state)), fault },
            auction_run::Stopped::Failed(fault) => Stopped { state: None, fault },
        })
    }
}
/// Why a run that went on gives no outcome.
pub struct Stopped {
    /// The state as it was, if nothing was begun.
    pub state: Option<State>,
    /// Why.
    pub fault: RunFault,
}
impl fmt::Debug for Stopped {
    fn fmt(&self, f: &mut fmt::Formatter<'_>) -> fmt::Result {
        self.fault.fmt(f)
    }
}

/// What a run gives.
pub struct Outcome {
    /// Its serial order.
    pub history: History,
    /// The objects that were hot in each phase.
    pub hot: Vec<Vec<Object>>,
    /// The auction after it.
    pub state: State,
}
impl Outcome {
    fn of(outcome: auction_run::Outcome) -> Outcome {
        let hot = outcome.hot.iter().map(|objects| objects.as_slice().to_vec()).collect();
        Outcome { history: History(outcome.history), hot, state: State(outcome.state) }
    }
}

// The field of stars can be set to what is none.
fn check_stars(request: &Request) {
    if let Request::StoreComment { stars, .. } = request {
        assert!(Stars::new(stars.value).is_some(), "stars are from -5 to 5");
    }
}
fn lists(scripts: Vec<Vec<Request>>) -> List<List<Request>> {
    scripts.iter().flatten().for_each(check_stars);
    scripts.into_iter().map(List::from).collect::<Vec<_>>().into()
}

/// Performs a script for each worker, by threads where phases are long. Stars that were set to what [`Stars::new`]
/// refuses are a panic.
pub fn run(book: &OpeningBook, scripts: Vec<Vec<Request>>, policy: Policy) -> Result<Outcome, RunFault> {
    auction_run::run(&HostRuntime, Global, &book.0, lists(scripts), policy, &FreeGate).map(Outcome::of)
}

/// Why nothing was watched.
#[derive(Clone, Copy, Debug, PartialEq, Eq, Error)]
pub enum WatchFault {
    /// There are 1 to 16 windows.
    #[error("number of windows")]
    Windows,
    /// No window could be made.
    #[error("{0}")]
    Make(MakeFault),
    /// The run failed.
    #[error("{0}")]
    Run(RunFault),
}
/// Shows the phases of a run that have closed, in any thread, and never goes back.
pub struct Window(auction_window::Window<Brand>);
impl Window {
    /// The reply that a view has after the phases so far; `None` of what is no view. It takes no lock.
    pub fn view(&mut self, view: Request) -> Result<Option<Seen>, NoGuard> {
        self.0.view(view)
    }
}

/// Performs scripts as `run` does, while a thread has so many windows. It waits for that thread, whose windows show
/// nothing any more once the run has ended. If the thread panics, so does this.
pub fn run_watched<T: Send>(
    book: &OpeningBook,
    scripts: Vec<Vec<Request>>,
    policy: Policy,
    windows: u32,
    watch: impl FnOnce(Vec<Window>) -> T + Send,
) -> Result<(Outcome, T), WatchFault> {
    if windows == 0 || windows as usize > MOST_WORKERS {
        return Err(WatchFault::Windows);
    }
    let made = Publisher::<Brand>::new(&HostRuntime, Global, PhaseLog::new(), &book.0, windows);
    let (publisher, made) = made.map_err(WatchFault::Make)?;
    let windows = made.into_iter().map(Window).collect();
    std::thread::scope(move |scope| {
        // It is let go here even if the run panics: then the windows show nothing.
        let mut board = WindowBoard::new(publisher);
        let watcher = scope.spawn(|| watch(windows));
        let ran = auction_run::run_shown(&HostRuntime, Global, &book.0, lists(scripts), policy, &FreeGate, &mut board);
        board.publisher.end(&HostRuntime);
        let seen = watcher.join().unwrap_or_else(|why| std::panic::resume_unwind(why));
        Ok((ran.map(Outcome::of).map_err(WatchFault::Run)?, seen))
    })
}

/// Why the program answers nothing.
#[derive(Clone, Debug, PartialEq, Eq, Error)]
#[error("{}", .text.trim_end())]
pub struct Fault {
    /// The status with which it ends: 1 for words, 2 for input, 3 for the run, 4 for output.
    pub status: u8,
    /// What it says, with the ends of lines.
    pub text: String,
}
impl From<auction_program::Fault> for Fault {
    fn from(fault: auction_program::Fault) -> Fault {
        let mut text = Vec::new();
        // It takes each byte.
        let _ = auction_program::write_fault(&mut text, &fault);
        Fault { status: auction_program::status(&fault), text: String::from_utf8_lossy(&text).into_owned() }
    }
}

/// Does what `rubis_auction WORDS` does with an input. After a fault a part of the output may be written. `--live` and
/// `--log` are for the program alone.
pub fn perform(words: &[&str], input: impl Read, output: &mut impl Write) -> Result<(), Fault> {
    let own = |word: &&str| kit::string::String::from_str(Global, word);
    let all = ["rubis_auction"].iter().chain(words).map(own).collect::<Result<Vec<_>, _>>();
    let all = List::from(all.map_err(|_| auction_program::Fault::Usage(UsageFault::Memory))?);
    let options = auction_program::read_options(Global, &all).map_err(auction_program::Fault::Usage)?;
    if options.live > 0 || options.log.is_some() {
        return Err(Fault { status: 1, text: "error: --live and --log are not for calls\n".into() });
    }
    Ok(auction_program::execute(&HostRuntime, Global, input, output, &options)?)
}
