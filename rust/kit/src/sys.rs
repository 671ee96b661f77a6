//! The calls of the C library that Rust's own does not give: with memory that may be refused.
use crate::alloc::Global;
use crate::boxed::Box;
use ::std::any::Any;
use ::std::ffi::{CStr, c_char, c_int};
use ::std::io::{Error, ErrorKind, Result};
use ::std::sync::atomic::{AtomicPtr, AtomicUsize, Ordering};

unsafe extern "C" {
    fn clock_gettime(clock: c_int, time: *mut [i64; 2]) -> c_int;
    fn realpath(path: *const u8, found: *mut u8) -> *const u8;
    fn signal(number: c_int, how: usize) -> usize;
    fn pthread_create(
        thread: *mut usize,
        how: *const u8,
        start: extern "C" fn(*mut u8) -> *mut u8,
        with: *mut u8,
    ) -> c_int;
    fn pthread_join(thread: usize, gives: *mut *mut u8) -> c_int;
}

/// The time since some beginning.
pub fn clock() -> Result<::std::time::Duration> {
    const MONOTONIC: c_int = 1;
    let mut time = [0; 2];
    // SAFETY: the place has the size of a time.
    if unsafe { clock_gettime(MONOTONIC, &mut time) } != 0 {
        return Err(Error::last_os_error());
    }
    Ok(::std::time::Duration::new(time[0].max(0) as u64, time[1] as u32))
}
/// The longest path, with the zero at its end.
pub const PATH_ROOM: usize = 4096;
/// The path without links, which is put down in `found`.
pub fn real_path<'a>(path: &str, found: &'a mut [u8; PATH_ROOM]) -> Result<&'a [u8]> {
    let mut zeroed = [0; PATH_ROOM];
    if path.len() >= PATH_ROOM || path.as_bytes().contains(&0) {
        return Err(ErrorKind::InvalidInput.into());
    }
    zeroed[..path.len()].copy_from_slice(path.as_bytes());
    // SAFETY: the path ends with a zero, and there is room for the longest.
    if unsafe { realpath(zeroed.as_ptr(), found.as_mut_ptr()) }.is_null() {
        return Err(Error::last_os_error());
    }
    let end = found.iter().position(|byte| *byte == 0).unwrap_or(0);
    Ok(&found[..end])
}

static COUNT: AtomicUsize = AtomicUsize::new(0);
static WORDS: AtomicPtr<*const u8> = AtomicPtr::new(::std::ptr::null_mut());
/// Keeps the words that the program was started with.
pub fn keep_words(count: i32, words: *const *const u8) {
    COUNT.store(count.max(0) as usize, Ordering::SeqCst);
    WORDS.store(words as *mut *const u8, Ordering::SeqCst);
}
/// These words.
pub fn words() -> impl Iterator<Item = &'static [u8]> {
    (0..COUNT.load(Ordering::SeqCst)).map(|at| {
        // SAFETY: there are so many words, each of which ends with a zero and stays as it is.
        unsafe { CStr::from_ptr(*WORDS.load(Ordering::SeqCst).add(at) as *const c_char) }.to_bytes()
    })
}
/// A write to a pipe that is closed fails, and does not end the program.
pub fn ignore_closed_pipes() {
    const PIPE: c_int = 13;
    const IGNORE: usize = 1;
    // SAFETY: no other thread runs yet.
    unsafe { signal(PIPE, IGNORE) };
}

// What a thread is passed, and where it leaves its answer or why it panicked.
enum Work<A, F> {
    Asked(F),
    Done(::std::result::Result<A, ::std::boxed::Box<dyn Any + Send>>),
    Begun,
}

/// A thread that is waited for, also where it is let go. Rust's own asks for memory that may not be refused.
pub struct Thread<A> {
    thread: usize,
    at: *mut u8,
    take: unsafe fn(*mut u8) -> Option<A>,
    is_joined: bool,
}
// SAFETY: it is the place of an answer that is sent from the thread.
unsafe impl<A: Send> Send for Thread<A> {}

extern "C" fn enter<A, F: FnOnce() -> A>(at: *mut u8) -> *mut u8 {
    // SAFETY: the one who waits touches the place only after this has ended.
    let place = unsafe { &mut *(at as *mut Work<A, F>) };
    if let Work::Asked(does) = ::std::mem::replace(place, Work::Begun) {
        *place = Work::Done(::std::panic::catch_unwind(::std::panic::AssertUnwindSafe(does)));
    }
    ::std::ptr::null_mut()
}
// The answer, if the work is done; a panic of it goes on here.
unsafe fn take<A, F>(at: *mut u8) -> Option<A> {
    // SAFETY: it was made by `start`, and its thread has ended.
    match *unsafe { ::std::boxed::Box::from_raw(at as *mut Work<A, F>) } {
        Work::Done(Ok(answer)) => Some(answer),
        Work::Done(Err(why)) if !::std::thread::panicking() => ::std::panic::resume_unwind(why),
        _ => None,
    }
}
/// Starts a thread.
///
/// # Safety
/// It must be joined or let go while all that the work borrows lives.
pub unsafe fn start<A, F: FnOnce() -> A>(work: F) -> Result<Thread<A>> {
    let at = Box::into_raw(Box::new(Global, Work::<A, F>::Asked(work))?) as *mut u8;
    let mut thread = 0;
    // SAFETY: the place lives until the thread is joined.
    let refused = unsafe { pthread_create(&mut thread, ::std::ptr::null(), enter::<A, F>, at) };
    if refused != 0 {
        // SAFETY: no thread was started.
        drop(unsafe { ::std::boxed::Box::from_raw(at as *mut Work<A, F>) });
        return Err(Error::from_raw_os_error(refused));
    }
    Ok(Thread { thread, at, take: take::<A, F>, is_joined: false })
}
impl<A> Thread<A> {
    fn wait(&mut self) -> Option<A> {
        self.is_joined = true;
        // SAFETY: it is joined once.
        unsafe {
            pthread_join(self.thread, ::std::ptr::null_mut());
            (self.take)(self.at)
        }
    }
    pub fn join(mut self) -> A {
        self.wait().expect("a thread that is joined has an answer")
    }
}
impl<A> Drop for Thread<A> {
    fn drop(&mut self) {
        if !self.is_joined {
            self.wait();
        }
    }
}
