//! What a user of the engine gives, and the form in which the crates below take it.
use arrayvec::ArrayVec;
use kit::alloc::AllocError;
use kit::vec::Vec as List;
use split_engine::Decision;
use std::marker::PhantomData;

/// How many records a request may name.
pub const MOST_KEYS: usize = split_engine::MOST_KEYS;

/// At most [`MOST_KEYS`] things: the keys that a request names, or the acts that it decides on. It is read as a slice;
/// to collect more of them is a panic.
pub type Few<T> = ArrayVec<T, MOST_KEYS>;

/// Records, and requests that name at most [`MOST_KEYS`] of them by their *keys*: their places in a table, from 0.
///
/// A request sees its records and decides on its reply, and on one *act* for each record; then the acts are done. Each
/// function goes by what it is given alone: no clock, no counter, no other record.
///
/// Runs rest on laws that no compiler checks here; [`law_test`](crate::law_test) looks for what breaks them:
///
/// - to merge a slice is to do the acts that were done on it, and to merge an empty one does nothing;
/// - acts of requests that split leave the same record in every order;
/// - such acts do not change what a request that splits decides.
///
/// Where one does not hold, a run leaves wrong records, and cannot know it.
pub trait Application {
    /// What is kept at a key.
    type Record: Send + Sync;
    /// What a worker keeps of a record while the record is split.
    type Slice: Send;
    /// What a request sees of a record.
    type Look: Copy + Send;
    /// What is asked.
    type Request: Copy + Send + Sync;
    /// What is answered.
    type Reply: Copy + PartialEq + Send;
    /// What is done to a record.
    type Act: Copy + Send;

    /// The keys of the records that a request names: one may stand there twice.
    fn keys(request: &Self::Request) -> Few<u32>;
    /// What a request sees of a record.
    fn look(record: &Self::Record) -> Self::Look;
    /// What a request is answered, by what it sees at each of its keys, and its acts on these records, in the order of
    /// the keys: none at those for which there is no act. More acts than keys are refused.
    fn decide(request: &Self::Request, looks: &[Self::Look]) -> (Self::Reply, Few<Self::Act>);
    /// Whether a request can be performed on slices. If not, a split phase puts it off to the next joined one.
    fn splits(request: &Self::Request) -> bool;
    /// Does an act on a record.
    fn apply(record: &mut Self::Record, act: Self::Act);
    /// A slice to which nothing was done.
    fn empty_slice() -> Self::Slice;
    /// Does an act of a request that splits on a slice.
    fn apply_to_slice(slice: &mut Self::Slice, act: Self::Act);
    /// Merges a slice into a record.
    fn merge(record: &mut Self::Record, slice: Self::Slice);
}

/// An application whose requests are lines of a log.
pub trait Loggable: Application {
    /// The line of a request, without its end. One that does nothing, as a view, need have none.
    fn line(request: &Self::Request) -> Option<String>;
    /// The request whose line this is; `None` of any other text.
    fn request(line: &str) -> Option<Self::Request>;
    /// Whether a crash may leave this beginning of a line, which is then cut off. A log with another end is refused.
    fn may_be_cut(text: &str) -> bool {
        !text.contains(char::is_control)
    }
}

pub(crate) fn few<T: Copy>(things: impl IntoIterator<Item = T>) -> split_engine::Few<T> {
    things.into_iter().fold(split_engine::Few::none(), split_engine::Few::and)
}

/// An application as the engine takes it. The reply `None` is that of a request with more acts than keys.
pub(crate) struct Engine<A>(PhantomData<fn() -> A>);

impl<A: Application> split_engine::Application for Engine<A> {
    type Record = A::Record;
    type Slice = A::Slice;
    type Look = A::Look;
    type Request = A::Request;
    type Reply = Option<A::Reply>;
    type Act = A::Act;

    fn keys(request: &A::Request) -> split_engine::Few<u32> {
        few(A::keys(request))
    }
    fn look(record: &A::Record) -> A::Look {
        A::look(record)
    }
    fn decide(request: &A::Request, looks: &split_engine::Few<A::Look>) -> Decision<Option<A::Reply>, A::Act> {
        let (reply, acts) = A::decide(request, &looks.iter().collect::<Few<_>>());
        if acts.len() > looks.len() {
            return Decision { reply: None, acts: few([]) };
        }
        Decision { reply: Some(reply), acts: few(acts) }
    }
    fn splits(request: &A::Request) -> bool {
        A::splits(request)
    }
    fn apply(record: &mut A::Record, act: A::Act) {
        A::apply(record, act)
    }
    fn empty_slice() -> A::Slice {
        A::empty_slice()
    }
    fn apply_to_slice(slice: &mut A::Slice, act: A::Act) {
        A::apply_to_slice(slice, act)
    }
    fn merge(record: &mut A::Record, slice: A::Slice) {
        A::merge(record, slice)
    }
}
impl<A: Application> application_check::Checkable for Engine<A> {
    fn is_same_reply(told: &Option<A::Reply>, given: &Option<A::Reply>) -> bool {
        told == given
    }
}
impl<A: Loggable> application_log::Loggable for Engine<A> {
    fn write_line(request: &A::Request, line: &mut List<u8>) -> Result<bool, AllocError> {
        let text = A::line(request);
        line.extend_from_slice(text.as_deref().unwrap_or_default().as_bytes())?;
        Ok(text.is_some())
    }
    fn read_line(text: &[u8]) -> Option<A::Request> {
        A::request(std::str::from_utf8(text).ok()?)
    }
    fn is_cut_line(text: &[u8]) -> bool {
        A::may_be_cut(&String::from_utf8_lossy(text))
    }
}
