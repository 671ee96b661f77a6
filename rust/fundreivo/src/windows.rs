//! Windows on an application: a publisher is handed parts of a history, and windows in other threads show them.
use crate::application::{Application, Few, few};
use application_window::{MakeFault, NoGuard, OpeningTable, PartLog, PublishFault, Seen};
use kit::alloc::Global;
use kit::marker::Brand;
use kit::panics::{caught, taken};
use kit::rt::HostRuntime;
use split_engine::{Decision, Entry, MOST_KEYS};
use std::array::from_fn;
use std::marker::PhantomData;
use std::panic::resume_unwind;
use thiserror::Error;

const MOST_WINDOWS: u32 = 1_024;

// A request with its keys: another answer of `keys` would end the program below.
#[derive(Clone, Copy)]
struct Asked<Q> {
    request: Q,
    keys: [Option<u32>; MOST_KEYS],
}
impl<Q: Copy> Asked<Q> {
    fn of<A: Application<Request = Q>>(request: Q) -> Asked<Q> {
        let keys = A::keys(&request);
        Asked { request, keys: from_fn(|at| keys.get(at).copied()) }
    }
}

// An application whose panics are kept for later: below, one would end the program. `None` stands for what one gave.
struct Shown<A>(PhantomData<fn() -> A>);
impl<A: Application> split_engine::Application for Shown<A> {
    type Record = A::Record;
    type Slice = ();
    type Look = Option<A::Look>;
    type Request = Asked<A::Request>;
    type Reply = Option<A::Reply>;
    type Act = A::Act;

    fn keys(asked: &Asked<A::Request>) -> split_engine::Few<u32> {
        few(asked.keys.into_iter().flatten())
    }
    fn look(record: &A::Record) -> Option<A::Look> {
        caught(|| A::look(record))
    }
    fn decide(
        asked: &Asked<A::Request>,
        looks: &split_engine::Few<Option<A::Look>>,
    ) -> Decision<Option<A::Reply>, A::Act> {
        let seen: Option<Few<_>> = looks.iter().collect();
        let decided = seen.and_then(|seen| {
            caught(|| {
                let (reply, acts) = A::decide(&asked.request, &seen);
                assert!(acts.len() <= seen.len(), "a request decides on more acts than it names keys");
                (Some(reply), acts)
            })
        });
        let (reply, acts) = decided.unwrap_or_default();
        Decision { reply, acts: few(acts) }
    }
    fn splits(_: &Asked<A::Request>) -> bool {
        false
    }
    fn apply(record: &mut A::Record, act: A::Act) {
        caught(|| A::apply(record, act));
    }
    fn empty_slice() {}
    fn apply_to_slice(_: &mut (), _: A::Act) {}
    fn merge(_: &mut A::Record, _: ()) {}
}

/// Why a publisher or a window gives nothing.
#[derive(Clone, Copy, Debug, PartialEq, Eq, Error)]
pub enum WindowFault {
    /// There are 1 to 1,024 windows.
    #[error("number of windows")]
    Windows,
    /// They could not be made.
    #[error("{0}")]
    Make(MakeFault),
    /// The part was not published.
    #[error("{0}")]
    Publish(PublishFault),
    /// The application panicked as an earlier part was published.
    #[error("the application panicked")]
    Panicked,
    /// The publisher was let go.
    #[error("the publisher has ended")]
    Ended,
}

/// Publishes the parts of a history to its windows. Once it is let go, they show nothing any more.
pub struct Publisher<A: Application> {
    // None as it is let go.
    inner: Option<application_window::Publisher<Shown<A>, Brand>>,
    has_panicked: bool,
}
impl<A: Application> Publisher<A> {
    /// A publisher that has published nothing, and 1 to 1,024 windows on its table.
    pub fn new(table: Vec<A::Record>, windows: u32) -> Result<(Publisher<A>, Vec<Window<A>>), WindowFault>
    where
        A::Record: Clone,
    {
        if windows == 0 || windows > MOST_WINDOWS {
            return Err(WindowFault::Windows);
        }
        let opening = OpeningTable { copy: table.clone().into(), table: table.into(), acts: 0 };
        let made = application_window::Publisher::new(&HostRuntime, Global, PartLog::new(), opening, windows);
        let (publisher, made) = made.map_err(WindowFault::Make)?;
        let publisher = Publisher { inner: Some(publisher), has_panicked: false };
        Ok((publisher, made.into_iter().map(Window).collect()))
    }
    /// Publishes the commits of a part, all at once, and looks at no reply in it. A panic of the application comes back
    /// here: windows then show what they showed, and each later part is refused.
    pub fn publish(&mut self, part: impl IntoIterator<Item = Entry<A::Request, A::Reply>>) -> Result<(), WindowFault> {
        let Some(publisher) = self.inner.as_mut().filter(|_| !self.has_panicked) else {
            return Err(WindowFault::Panicked);
        };
        let asked = part.into_iter().map(|Entry { worker, index, request, reply }| {
            let request = Asked::of::<A>(request);
            Entry { worker, index, request, reply: Some(reply) }
        });
        let told = publisher.publish(&HostRuntime, asked.collect::<Vec<_>>().into());
        if let Some(why) = taken() {
            self.has_panicked = true;
            resume_unwind(why);
        }
        told.map(|_| ()).map_err(WindowFault::Publish)
    }
}
impl<A: Application> Drop for Publisher<A> {
    fn drop(&mut self) {
        if let Some(publisher) = self.inner.take() {
            publisher.end(&HostRuntime);
        }
    }
}

/// Shows what is published, in any thread, and never goes back. It takes no lock.
pub struct Window<A: Application>(application_window::Window<Shown<A>, Brand>);
impl<A: Application> Window<A> {
    /// What a request sees of the record at a key; `None` if there is no such key. A panic of the application comes
    /// back here.
    pub fn look(&mut self, key: u32) -> Result<Option<Seen<A::Look>>, WindowFault> {
        shown(self.0.look(key))
    }
    /// The reply that a request would have; `None` if it names a key that is not there. A panic of the application
    /// comes back here.
    pub fn answer(&mut self, request: A::Request) -> Result<Option<Seen<A::Reply>>, WindowFault> {
        shown(self.0.answer(Asked::of::<A>(request)))
    }
}

// What a window shows, if no panic was caught.
fn shown<T>(seen: Result<Option<Seen<Option<T>>>, NoGuard>) -> Result<Option<Seen<T>>, WindowFault> {
    if let Some(why) = taken() {
        resume_unwind(why);
    }
    let seen = seen.map_err(|NoGuard| WindowFault::Ended)?;
    Ok(seen.and_then(|Seen { commits, value }| Some(Seen { commits, value: value? })))
}
