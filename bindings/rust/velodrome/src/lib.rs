//! Finds blocks of a multithreaded program that were meant to be atomic and were not, as its tests run.
//!
//! Say which functions are meant to be atomic, take the types of [`sync`], [`cell`] and [`thread`] in the place of std's, and
//! write `#[velodrome::test]` in the place of `#[test]`:
//!
//! ```
//! use velodrome::{cell::Var, sync::Mutex, thread};
//!
//! static BALANCE: Mutex<u32> = Mutex::new(100);
//!
//! #[velodrome::atomic]
//! fn deposit(amount: u32) {
//!     *BALANCE.lock().unwrap() += amount; // one hold: nothing comes between the read and the write
//! }
//!
//! velodrome::check(|| {
//!     let other = thread::spawn(|| deposit(10));
//!     deposit(5);
//!     other.join().unwrap();
//! });
//! assert_eq!(*BALANCE.lock().unwrap(), 115);
//! ```
//!
//! A test fails at an alarm: no serial order of the blocks has the accesses of this run in their order. It prints which blocks, by
//! which events, and where they are in the source; the log is kept for `velodrome explain`. That an alarm is true of what was
//! recorded is proved; these wrappers are tested. A run without an alarm says nothing of other schedules: repeat it, with `noise`.
//!
//! # What is recorded
//!
//! Each lock and unlock, atomic access, access of a [`Var`](cell::Var), start and join of a thread, message, barrier and once
//! of these modules, in all threads of the program, also those of a pool. So that each event is of one run, runs take turns
//! ([`Builder::everywhere`]). What other types do is not seen. A block that waits for another thread, by a join, a
//! condition variable or a barrier, is never serial: an alarm is then what is to be expected.
//!
//! # It never fails the program
//!
//! Without a session the types are std's own with a check of one number. What cannot be recorded, such as a block with more events
//! than there is room for, ends the recording with a [`Reason`]; the program goes on. Nothing here panics, except where std
//! does, and [`check`].
//!
//! # In a program
//!
//! As with loom, a `cfg` keeps the types out of what is shipped:
//!
//! ```
//! # #![allow(unexpected_cfgs)]
//! #[cfg(velodrome)]
//! use velodrome::sync;
//! #[cfg(not(velodrome))]
//! use std::sync;
//! # let _ = sync::Mutex::new(0);
//! ```
//!
//! `Cargo.toml` says that it is no mistake, and `RUSTFLAGS="--cfg velodrome" cargo test` sets it:
//!
//! ```toml
//! [lints.rust]
//! unexpected_cfgs = { level = "warn", check-cfg = ["cfg(velodrome)"] }
//! ```
//!
//! # The environment of `check` and `#[velodrome::test]`
//!
//! | Variable | |
//! |---|---|
//! | `VELODROME_NOISE=4` | one event in four waits for a while, so that more schedules happen |
//! | `VELODROME_SEED=7` | which ones |
//! | `VELODROME_LOGS=target/velodrome` | the folder for the logs of alarms; else the working directory. `.cargo/config.toml` can set it |
//! | `VELODROME_INCOMPLETE=warn` | a test that was not watched to its end, or of which nothing was recorded, passes, and is named when the process ends; else it fails |
//! | `VELODROME_IGNORE_LOCK=log` | locks of that name, or with a star in it of such names, are left out; so do `.._VARIABLE` and `.._LABEL`, and commas stand between names |
#![warn(missing_debug_implementations)]
use std::fmt;
use std::marker::PhantomData;
use std::panic::{catch_unwind, resume_unwind, AssertUnwindSafe, Location};
use velodrome_sys as sys;

pub mod cell;
mod session;
mod summary;
pub mod sync;
pub mod task;
pub mod thread;
mod turn;

pub use velodrome_macros::{atomic, test};

use session::{Begun, End, Session};

/// The outcome of a run.
#[derive(Clone, Debug, PartialEq, Eq)]
#[must_use = "it says whether the blocks were atomic"]
#[non_exhaustive]
pub enum Outcome {
    /// A serial order of the blocks explains all that was recorded.
    Clean,
    /// No serial order does.
    Alarm(Alarm),
    /// There was no alarm while it was watched, which was not to its end.
    Incomplete(Reason),
}

/// Blocks that were not atomic.
#[derive(Clone, Debug, PartialEq, Eq)]
pub struct Alarm {
    report: String,
}

impl Alarm {
    /// Which blocks, by which events, with names and places: lines of text.
    pub fn report(&self) -> &str {
        &self.report
    }
}

impl fmt::Display for Alarm {
    fn fmt(&self, f: &mut fmt::Formatter<'_>) -> fmt::Result {
        f.write_str(&self.report)
    }
}

impl std::error::Error for Alarm {}

/// Why a run was not watched to its end.
#[derive(Clone, Debug, PartialEq, Eq)]
pub struct Reason {
    words: String,
}

impl fmt::Display for Reason {
    fn fmt(&self, f: &mut fmt::Formatter<'_>) -> fmt::Result {
        f.write_str(&self.words)
    }
}

impl std::error::Error for Reason {}

impl Outcome {
    /// Whether it is [`Clean`](Outcome::Clean).
    #[must_use]
    pub fn is_clean(&self) -> bool {
        *self == Outcome::Clean
    }

    fn of(end: End) -> Outcome {
        match end.verdict {
            sys::VS_CLEAN => Outcome::Clean,
            sys::VS_ALARM => Outcome::Alarm(Alarm { report: end.report }),
            _ if end.report.is_empty() => Outcome::Incomplete(Reason {
                words: "it could not be watched".into(),
            }),
            _ => Outcome::Incomplete(Reason { words: end.report }),
        }
    }
}

impl fmt::Display for Outcome {
    fn fmt(&self, f: &mut fmt::Formatter<'_>) -> fmt::Result {
        match self {
            Outcome::Clean => f.write_str("clean"),
            Outcome::Alarm(alarm) => alarm.fmt(f),
            Outcome::Incomplete(reason) => reason.fmt(f),
        }
    }
}

/// How a run is watched.
///
/// ```
/// use velodrome::cell::Var;
/// let hits = Var::new(0);
/// let ((), outcome) = velodrome::Builder::new().max_events(1 << 16).noise(4).run(|| hits.set(1));
/// assert!(outcome.is_clean());
/// ```
#[derive(Clone, Debug)]
#[must_use = "it does nothing until `run` or `check`"]
pub struct Builder {
    name: String,
    max_events: u32,
    noise: u32,
    seed: u64,
    everywhere: bool,
    ignored: Vec<(sys::vs_named, String)>,
}

impl Default for Builder {
    fn default() -> Builder {
        Builder::new()
    }
}

impl Builder {
    /// The defaults.
    pub const fn new() -> Builder {
        Builder {
            name: String::new(),
            max_events: 0,
            noise: 0,
            seed: 0,
            everywhere: true,
            ignored: Vec::new(),
        }
    }

    /// The name of the log that [`check`](Builder::check) keeps; otherwise the place of its call.
    pub fn name(mut self, name: impl Into<String>) -> Builder {
        self.name = name.into();
        self
    }

    /// The most events of a stretch in which some block is open. A stretch with more ends the recording. 16,777,216 at most; 0, the
    /// default, is 1,048,576. It is the memory of the log, at 24 bytes an event.
    pub fn max_events(mut self, most: u32) -> Builder {
        self.max_events = most;
        self
    }

    /// One event in `one_in` waits for up to 200 us before it happens, so that more schedules happen. 0, the default: none.
    pub fn noise(mut self, one_in: u32) -> Builder {
        self.noise = one_in;
        self
    }

    /// Which events wait. 0, the default: others in each run.
    pub fn seed(mut self, seed: u64) -> Builder {
        self.seed = seed;
        self
    }

    /// Whether all threads of the program that are in no other run are watched, which is the default. Such runs take turns: one begins
    /// when the one before has ended. A run within a run, on its threads or those of [`thread`], begins at once; so does one that has
    /// waited for a minute, for its own threads alone.
    ///
    /// A test that is not watched but uses these types is watched by the run beside it, unless its body is in [`unwatched`].
    ///
    /// Otherwise a thread that no watched one started, such as one of a pool, is met where it uses a variable or lock that this run
    /// knows, and runs go on beside one another.
    pub fn everywhere(mut self, everywhere: bool) -> Builder {
        self.everywhere = everywhere;
        self
    }

    /// Leaves out the variables, locks or blocks of this name; a star in it stands for any characters. What is left out makes no alarm.
    ///
    /// ```
    /// use velodrome::{sync::Mutex, Ignored};
    /// static LOG: Mutex<String> = Mutex::new(String::new());
    /// let builder = velodrome::Builder::new().ignore(Ignored::Lock, "Mutex (lib.rs:*)");
    /// # let _ = (builder, &LOG);
    /// ```
    pub fn ignore(mut self, what: Ignored, name: impl Into<String>) -> Builder {
        let kind = match what {
            Ignored::Variable => sys::VS_NAMED_VARIABLE,
            Ignored::Lock => sys::VS_NAMED_LOCK,
            Ignored::Block => sys::VS_NAMED_LABEL,
        };
        self.ignored.push((kind, name.into()));
        self
    }

    /// Runs the body, and returns its value and what its blocks came to. Where the body panics, so does this. A run of which nothing
    /// was recorded is incomplete.
    pub fn run<T>(&self, body: impl FnOnce() -> T) -> (T, Outcome) {
        let (_turn, session) = self.open(sys::vs_options::DEFAULT);
        let value = body();
        (value, Outcome::of(session.close()))
    }

    /// As [`check`], with these options, which go before those of the environment.
    ///
    /// # Panics
    ///
    /// At an alarm, with its report. Also where the run was not watched to its end, or nothing was recorded, unless
    /// `VELODROME_INCOMPLETE=warn`; and where a setting of the environment means nothing.
    #[track_caller]
    pub fn check<T>(&self, body: impl FnOnce() -> T) -> T {
        let name = self.log_name(Location::caller());
        let (turn, session) = self.open(session::environment(sys::vs_options::DEFAULT));
        let result = catch_unwind(AssertUnwindSafe(body));
        let end = session.finish(&name);
        drop(turn);
        match result {
            Ok(_) if end.fails => panic!("{}", end.report),
            Ok(value) => {
                if !end.report.is_empty() {
                    summary::add(&name, &end.report);
                }
                value
            }
            Err(payload) => {
                note(&end);
                resume_unwind(payload)
            }
        }
    }

    fn open(&self, from: sys::vs_options) -> (turn::Turn, Session) {
        let turn = turn::Turn::take(self.everywhere);
        let session = Session::open(&self.options(from), self.everywhere && turn.is_mine());
        for (kind, name) in &self.ignored {
            session.ignore(*kind, name);
        }
        (turn, session)
    }

    fn options(&self, from: sys::vs_options) -> sys::vs_options {
        let or = |mine, other| if mine == 0 { other } else { mine };
        let seed = if self.seed == 0 { from.seed } else { self.seed };
        sys::vs_options {
            events: or(self.max_events, from.events),
            noise: or(self.noise, from.noise),
            seed,
            ..from
        }
    }

    fn log_name(&self, caller: &Location<'_>) -> String {
        if self.name.is_empty() {
            format!("{}-{}", caller.file(), caller.line())
        } else {
            self.name.replace("::", ".")
        }
    }
}

/// What [`Builder::ignore`] leaves out.
#[derive(Clone, Copy, Debug, PartialEq, Eq)]
#[non_exhaustive]
pub enum Ignored {
    /// The accesses of variables: of a [`Var`](cell::Var), an atomic, a message, a once or a barrier.
    Variable,
    /// The uses of locks.
    Lock,
    /// The begins and ends of blocks, by their label. What is done in them stays.
    Block,
}

/// Prints what a run came to, if there is something to say.
fn note(end: &End) {
    if !end.report.is_empty() {
        eprintln!("velodrome: {}", end.report.trim_end());
    }
}

/// Runs the body, watched, and panics where its blocks were not atomic. This is what [`macro@test`] does with its function.
///
/// If the body panics, the panic goes on, and an alarm is printed before.
///
/// # Panics
///
/// At an alarm, with its report. Also where the run was not watched to its end, or nothing was recorded, unless
/// `VELODROME_INCOMPLETE=warn`.
///
/// ```should_panic
/// use velodrome::{cell::Var, thread};
/// let balance = Var::new(100);
/// velodrome::check(|| {
///     thread::scope(|scope| {
///         let _transfer = velodrome::block!("transfer");
///         let before = balance.get();
///         std::thread::scope(|other| {
///             other.spawn(|| balance.set(0)); // between the read and the write
///         });
///         balance.set(before + 5);
///         # let _ = scope;
///     })
/// });
/// ```
#[track_caller]
pub fn check<T>(body: impl FnOnce() -> T) -> T {
    Builder::new().check(body)
}

/// Runs the body between two runs that watch all threads, so that none of them records it: for a test that is not watched, but uses
/// these types beside tests that are. Within a run it is a part of that.
///
/// ```
/// use velodrome::sync::Mutex;
/// let balance = Mutex::new(100);
/// velodrome::unwatched(|| *balance.lock().unwrap() += 5);
/// ```
pub fn unwatched<T>(body: impl FnOnce() -> T) -> T {
    let _turn = turn::Turn::take(true);
    body()
}

/// An atomic block of this thread, by [`block!`]: it ends where the value is dropped, with the blocks that began within it. One that is
/// forgotten ends with its run. In a future it is of the thread, unless [`task::watch`] has the future; where it cannot be told what is
/// in it, the run is incomplete.
///
/// ```
/// let transfer = velodrome::block!("transfer");
/// drop(transfer);
/// ```
///
/// A block as a statement ends at once, so the compiler warns of it:
///
/// ```compile_fail
/// #![deny(unused_must_use)]
/// fn transfer() {
///     velodrome::block!("transfer");
/// }
/// ```
#[must_use = "the block ends where this is dropped: `let _block = ..`"]
pub struct Block {
    begun: Begun,
    stays: PhantomData<*const ()>,
}

impl Block {
    #[doc(hidden)]
    pub fn enter(label: &'static Label) -> Block {
        Block {
            begun: session::begin(&label.0),
            stays: PhantomData,
        }
    }
}

impl Drop for Block {
    fn drop(&mut self) {
        session::end(self.begun);
    }
}

impl fmt::Debug for Block {
    fn fmt(&self, f: &mut fmt::Formatter<'_>) -> fmt::Result {
        f.write_str("Block")
    }
}

#[doc(hidden)]
#[derive(Debug)]
pub struct Label(session::Object);

impl Label {
    #[track_caller]
    pub const fn new(name: &'static str) -> Label {
        Label(session::Object::new(name, Location::caller()))
    }
}

/// Begins an atomic block that ends where the value is dropped: `let _block = velodrome::block!("transfer");`
///
/// The name is a constant. Reports have it with file and line.
#[macro_export]
macro_rules! block {
    ($name:expr $(,)?) => {{
        static LABEL: $crate::Label = $crate::Label::new($name);
        $crate::Block::enter(&LABEL)
    }};
}
