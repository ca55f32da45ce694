//! `std::thread`, recorded: start, end and join. Threads of other libraries are met at their first event.
use crate::session::{self, Child, Place};
use crate::turn;
use std::cell::OnceCell;
use std::fmt;
use std::io;
use std::panic::Location;
use std::sync::{Arc, Mutex, PoisonError};
use std::thread as real;

pub use std::thread::{
    available_parallelism, current, panicking, park, park_timeout, sleep, yield_now, AccessError,
    LocalKey, Result, Thread, ThreadId,
};

/// The body, in the thread of the child, which is in its parent's run.
fn inside<T>(child: Child, within: bool, body: impl FnOnce() -> T) -> T {
    turn::enter(within);
    let _life = session::born(child);
    body()
}

/// What came of a start.
fn started<T>(child: Child, result: io::Result<T>) -> io::Result<T> {
    if result.is_err() {
        session::unborn(child);
    }
    result
}

/// As std's.
///
/// # Panics
///
/// If the system starts no thread.
#[track_caller]
pub fn spawn<F, T>(body: F) -> JoinHandle<T>
where
    F: FnOnce() -> T + Send + 'static,
    T: Send + 'static,
{
    Builder::new().spawn(body).expect("failed to spawn thread")
}

/// [`std::thread::Builder`], recorded.
#[derive(Debug)]
#[must_use = "must eventually spawn the thread"]
pub struct Builder {
    inner: real::Builder,
}

impl Builder {
    /// As std's.
    #[allow(clippy::new_without_default)] // as std's
    pub fn new() -> Builder {
        Builder {
            inner: real::Builder::new(),
        }
    }

    /// As std's.
    pub fn name(self, name: String) -> Builder {
        Builder {
            inner: self.inner.name(name),
        }
    }

    /// As std's.
    pub fn stack_size(self, size: usize) -> Builder {
        Builder {
            inner: self.inner.stack_size(size),
        }
    }

    /// As std's.
    ///
    /// # Errors
    ///
    /// If the system starts no thread.
    #[track_caller]
    pub fn spawn<F, T>(self, body: F) -> io::Result<JoinHandle<T>>
    where
        F: FnOnce() -> T + Send + 'static,
        T: Send + 'static,
    {
        let child = session::fork(Location::caller());
        let within = turn::is_within();
        let inner = started(child, self.inner.spawn(move || inside(child, within, body)))?;
        Ok(JoinHandle { child, inner })
    }

    /// As std's.
    ///
    /// # Errors
    ///
    /// If the system starts no thread.
    #[track_caller]
    pub fn spawn_scoped<'scope, 'env, F, T>(
        self,
        scope: &'scope Scope<'scope, 'env>,
        body: F,
    ) -> io::Result<ScopedJoinHandle<'scope, T>>
    where
        F: FnOnce() -> T + Send + 'scope,
        T: Send + 'scope,
    {
        let child = session::fork(Location::caller());
        let within = turn::is_within();
        let inner = started(
            child,
            self.inner
                .spawn_scoped(scope.inner, move || inside(child, within, body)),
        )?;
        scope
            .children
            .lock()
            .unwrap_or_else(PoisonError::into_inner)
            .push(child);
        Ok(ScopedJoinHandle { child, inner })
    }
}

/// [`std::thread::JoinHandle`], recorded.
pub struct JoinHandle<T> {
    child: Child,
    inner: real::JoinHandle<T>,
}

impl<T> JoinHandle<T> {
    /// As std's.
    ///
    /// # Errors
    ///
    /// If the thread panicked; the error has its payload.
    #[track_caller]
    pub fn join(self) -> Result<T> {
        let result = self.inner.join();
        session::join(self.child, Location::caller());
        result
    }

    /// As std's.
    #[must_use]
    pub fn thread(&self) -> &Thread {
        self.inner.thread()
    }

    /// As std's.
    #[must_use]
    pub fn is_finished(&self) -> bool {
        self.inner.is_finished()
    }
}

impl<T> fmt::Debug for JoinHandle<T> {
    fn fmt(&self, f: &mut fmt::Formatter<'_>) -> fmt::Result {
        f.debug_struct("JoinHandle").finish_non_exhaustive()
    }
}

/// [`std::thread::Scope`], recorded.
pub struct Scope<'scope, 'env: 'scope> {
    inner: &'scope real::Scope<'scope, 'env>,
    children: Arc<Mutex<Vec<Child>>>,
}

/// As std's. The joins at its end are recorded.
///
/// What a thread borrows lives longer than the scope:
///
/// ```compile_fail,E0597
/// velodrome::thread::scope(|scope| {
///     let local = 1;
///     scope.spawn(|| println!("{}", &local));
/// });
/// ```
#[track_caller]
pub fn scope<'env, F, T>(body: F) -> T
where
    F: for<'scope> FnOnce(&'scope Scope<'scope, 'env>) -> T,
{
    let children = Children {
        list: Arc::default(),
        place: Location::caller(),
    };
    let ours: OnceCell<Scope<'static, 'static>> = OnceCell::new();
    real::scope(|theirs| {
        let scope = Scope {
            inner: theirs,
            children: Arc::clone(&children.list),
        };
        // SAFETY: `ours` outlives the scope, whose threads std joins before it returns, and its reference is not used after that. So
        // it may be lent for as long as the scope, by the body's parameter and with the scope's own lifetimes.
        let scope =
            unsafe { std::mem::transmute::<Scope<'_, 'env>, Scope<'static, 'static>>(scope) };
        let scope = std::ptr::from_ref(ours.get_or_init(|| scope));
        // SAFETY: as above.
        body(unsafe { &*scope.cast() })
    })
}

/// The threads of a scope, whose joins are recorded when it is dropped, also if the scope panics because one of them did.
struct Children {
    list: Arc<Mutex<Vec<Child>>>,
    place: Place,
}

impl Drop for Children {
    fn drop(&mut self) {
        let mut list = self.list.lock().unwrap_or_else(PoisonError::into_inner);
        list.drain(..)
            .for_each(|child| session::join(child, self.place));
    }
}

impl<'scope> Scope<'scope, '_> {
    /// As std's.
    ///
    /// # Panics
    ///
    /// If the system starts no thread.
    #[track_caller]
    pub fn spawn<F, T>(&'scope self, body: F) -> ScopedJoinHandle<'scope, T>
    where
        F: FnOnce() -> T + Send + 'scope,
        T: Send + 'scope,
    {
        Builder::new()
            .spawn_scoped(self, body)
            .expect("failed to spawn thread")
    }
}

impl fmt::Debug for Scope<'_, '_> {
    fn fmt(&self, f: &mut fmt::Formatter<'_>) -> fmt::Result {
        f.debug_struct("Scope").finish_non_exhaustive()
    }
}

/// [`std::thread::ScopedJoinHandle`], recorded.
pub struct ScopedJoinHandle<'scope, T> {
    child: Child,
    inner: real::ScopedJoinHandle<'scope, T>,
}

impl<T> ScopedJoinHandle<'_, T> {
    /// As std's.
    ///
    /// # Errors
    ///
    /// If the thread panicked; the error has its payload.
    #[track_caller]
    pub fn join(self) -> Result<T> {
        let result = self.inner.join();
        session::join(self.child, Location::caller());
        result
    }

    /// As std's.
    #[must_use]
    pub fn thread(&self) -> &Thread {
        self.inner.thread()
    }

    /// As std's.
    #[must_use]
    pub fn is_finished(&self) -> bool {
        self.inner.is_finished()
    }
}

impl<T> fmt::Debug for ScopedJoinHandle<'_, T> {
    fn fmt(&self, f: &mut fmt::Formatter<'_>) -> fmt::Result {
        f.debug_struct("ScopedJoinHandle").finish_non_exhaustive()
    }
}
