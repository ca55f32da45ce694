//! `std::sync`, told: with std's constructors, results and poisoning.
use crate::session::{Kind, Object, Place};
use std::fmt;
use std::ops::{Deref, DerefMut};
use std::panic::Location;
use std::sync as real;
use std::time::Duration;

pub use std::sync::{
    Arc, BarrierWaitResult, LockResult, OnceState, PoisonError, TryLockError, TryLockResult,
    WaitTimeoutResult, Weak,
};

pub mod atomic;
pub mod mpsc;
mod once;

pub use once::{LazyLock, OnceLock};

/// Tells the release of a lock where it is dropped, which is before the lock is released: a guard has it as its first field.
struct Told<'a> {
    object: &'a Object,
    release: Kind,
}

impl<'a> Told<'a> {
    /// The lock was taken.
    #[inline]
    fn new(object: &'a Object, acquire: Kind, place: Place) -> Told<'a> {
        object.tell(acquire, place);
        let release = if matches!(acquire, Kind::Acquire) {
            Kind::Release
        } else {
            Kind::ReleaseShared
        };
        Told { object, release }
    }
}

impl Drop for Told<'_> {
    #[inline]
    fn drop(&mut self) {
        self.object.tell_unplaced(self.release);
    }
}

/// What std's lock answered, with its guard in ours. Either way the lock is held.
fn held<G, H>(result: LockResult<G>, wrap: impl FnOnce(G) -> H) -> LockResult<H> {
    match result {
        Ok(guard) => Ok(wrap(guard)),
        Err(poisoned) => Err(PoisonError::new(wrap(poisoned.into_inner()))),
    }
}

/// The same where the lock was only tried.
fn tried<G, H>(result: TryLockResult<G>, wrap: impl FnOnce(G) -> H) -> TryLockResult<H> {
    match result {
        Ok(guard) => Ok(wrap(guard)),
        Err(TryLockError::Poisoned(poisoned)) => Err(TryLockError::Poisoned(PoisonError::new(
            wrap(poisoned.into_inner()),
        ))),
        Err(TryLockError::WouldBlock) => Err(TryLockError::WouldBlock),
    }
}

macro_rules! guard {
    ($(#[$doc:meta])* $guard:ident, $acquire:ident $(, $mutable:ident)?) => {
        $(#[$doc])*
        #[must_use = "the lock is released where this is dropped, so at once"]
        pub struct $guard<'a, T: ?Sized> {
            _told: Told<'a>, // goes first
            inner: real::$guard<'a, T>,
        }

        impl<'a, T: ?Sized> $guard<'a, T> {
            #[inline]
            fn new(object: &'a Object, inner: real::$guard<'a, T>, place: Place) -> Self {
                $guard { _told: Told::new(object, Kind::$acquire, place), inner }
            }
        }

        impl<T: ?Sized> Deref for $guard<'_, T> {
            type Target = T;
            #[inline]
            fn deref(&self) -> &T {
                &self.inner
            }
        }

        $(impl<T: ?Sized> $mutable for $guard<'_, T> {
            #[inline]
            fn deref_mut(&mut self) -> &mut T {
                &mut self.inner
            }
        })?

        impl<T: ?Sized + fmt::Debug> fmt::Debug for $guard<'_, T> {
            fn fmt(&self, f: &mut fmt::Formatter<'_>) -> fmt::Result {
                self.inner.fmt(f)
            }
        }

        impl<T: ?Sized + fmt::Display> fmt::Display for $guard<'_, T> {
            fn fmt(&self, f: &mut fmt::Formatter<'_>) -> fmt::Result {
                self.inner.fmt(f)
            }
        }
    };
}

guard!(
    /// [`std::sync::MutexGuard`], told.
    MutexGuard, Acquire, DerefMut
);
guard!(
    /// [`std::sync::RwLockReadGuard`], told.
    RwLockReadGuard, AcquireShared
);
guard!(
    /// [`std::sync::RwLockWriteGuard`], told.
    RwLockWriteGuard, Acquire, DerefMut
);

macro_rules! lock {
    ($(#[$doc:meta])* $lock:ident) => {
        $(#[$doc])*
        pub struct $lock<T: ?Sized> {
            object: Object,
            inner: real::$lock<T>,
        }

        impl<T> $lock<T> {
            /// As std's. Reports name it by this place in the source.
            #[track_caller]
            pub const fn new(value: T) -> Self {
                $lock { object: Object::new(stringify!($lock), Location::caller()), inner: real::$lock::new(value) }
            }

            /// As std's.
            ///
            /// # Errors
            ///
            /// If it is poisoned.
            pub fn into_inner(self) -> LockResult<T> {
                self.inner.into_inner()
            }
        }

        impl<T: ?Sized> $lock<T> {
            /// As std's. It is not told, as no other thread has it.
            ///
            /// # Errors
            ///
            /// If it is poisoned.
            pub fn get_mut(&mut self) -> LockResult<&mut T> {
                self.inner.get_mut()
            }

            /// As std's.
            #[must_use]
            pub fn is_poisoned(&self) -> bool {
                self.inner.is_poisoned()
            }

            /// As std's.
            pub fn clear_poison(&self) {
                self.inner.clear_poison();
            }
        }

        impl<T: Default> Default for $lock<T> {
            #[track_caller]
            fn default() -> Self {
                $lock::new(T::default())
            }
        }

        impl<T> From<T> for $lock<T> {
            #[track_caller]
            fn from(value: T) -> Self {
                $lock::new(value)
            }
        }

        /// It is not told.
        impl<T: ?Sized + fmt::Debug> fmt::Debug for $lock<T> {
            fn fmt(&self, f: &mut fmt::Formatter<'_>) -> fmt::Result {
                self.inner.fmt(f)
            }
        }
    };
}

lock!(
    /// [`std::sync::Mutex`], told.
    ///
    /// ```
    /// use velodrome::sync::Mutex;
    /// static BALANCE: Mutex<u32> = Mutex::new(100);
    /// *BALANCE.lock().unwrap() += 5;
    /// ```
    Mutex
);
lock!(
    /// [`std::sync::RwLock`], told. Of a lock that is read twice by a thread the outermost hold is told.
    ///
    /// ```
    /// let prices = velodrome::sync::RwLock::new(vec![1, 2]);
    /// prices.write().unwrap().push(3);
    /// assert_eq!(prices.read().unwrap().len(), 3);
    /// ```
    RwLock
);

impl<T: ?Sized> Mutex<T> {
    /// As std's.
    ///
    /// # Errors
    ///
    /// If it is poisoned; the error has the guard.
    #[track_caller]
    #[inline]
    pub fn lock(&self) -> LockResult<MutexGuard<'_, T>> {
        let place = Location::caller();
        held(self.inner.lock(), |guard| {
            MutexGuard::new(&self.object, guard, place)
        })
    }

    /// As std's.
    ///
    /// # Errors
    ///
    /// If it is held, or poisoned; in that case the error has the guard.
    #[track_caller]
    #[inline]
    pub fn try_lock(&self) -> TryLockResult<MutexGuard<'_, T>> {
        let place = Location::caller();
        tried(self.inner.try_lock(), |guard| {
            MutexGuard::new(&self.object, guard, place)
        })
    }
}

impl<T: ?Sized> RwLock<T> {
    /// As std's.
    ///
    /// # Errors
    ///
    /// If it is poisoned; the error has the guard.
    #[track_caller]
    #[inline]
    pub fn read(&self) -> LockResult<RwLockReadGuard<'_, T>> {
        let place = Location::caller();
        held(self.inner.read(), |guard| {
            RwLockReadGuard::new(&self.object, guard, place)
        })
    }

    /// As std's.
    ///
    /// # Errors
    ///
    /// If it is poisoned; the error has the guard.
    #[track_caller]
    #[inline]
    pub fn write(&self) -> LockResult<RwLockWriteGuard<'_, T>> {
        let place = Location::caller();
        held(self.inner.write(), |guard| {
            RwLockWriteGuard::new(&self.object, guard, place)
        })
    }

    /// As std's.
    ///
    /// # Errors
    ///
    /// If it is held for writing, or poisoned; in that case the error has the guard.
    #[track_caller]
    #[inline]
    pub fn try_read(&self) -> TryLockResult<RwLockReadGuard<'_, T>> {
        let place = Location::caller();
        tried(self.inner.try_read(), |guard| {
            RwLockReadGuard::new(&self.object, guard, place)
        })
    }

    /// As std's.
    ///
    /// # Errors
    ///
    /// If it is held, or poisoned; in that case the error has the guard.
    #[track_caller]
    #[inline]
    pub fn try_write(&self) -> TryLockResult<RwLockWriteGuard<'_, T>> {
        let place = Location::caller();
        tried(self.inner.try_write(), |guard| {
            RwLockWriteGuard::new(&self.object, guard, place)
        })
    }
}

#[cfg(rust_1_92)]
impl<'a, T: ?Sized> RwLockWriteGuard<'a, T> {
    /// As std's, from Rust 1.92 on: told as a release, and an acquire for reading.
    #[track_caller]
    #[must_use = "the lock is released where this is dropped, so at once"]
    #[allow(clippy::incompatible_msrv)] // see the `cfg`
    pub fn downgrade(guard: Self) -> RwLockReadGuard<'a, T> {
        let RwLockWriteGuard { _told: told, inner } = guard;
        let object = told.object;
        drop(told);
        let inner = real::RwLockWriteGuard::downgrade(inner);
        RwLockReadGuard::new(object, inner, Location::caller())
    }
}

/// [`std::sync::Condvar`]: a wait is told as a release and an acquire of the mutex. A notification is not told.
///
/// ```
/// use velodrome::{sync::{Condvar, Mutex}, thread};
/// let (open, opened) = (Mutex::new(false), Condvar::new());
/// thread::scope(|scope| {
///     scope.spawn(|| {
///         *open.lock().unwrap() = true;
///         opened.notify_one();
///     });
///     drop(opened.wait_while(open.lock().unwrap(), |open| !*open));
/// });
/// ```
#[derive(Debug, Default)]
pub struct Condvar {
    inner: real::Condvar,
}

impl Condvar {
    /// As std's.
    #[must_use]
    pub const fn new() -> Condvar {
        Condvar {
            inner: real::Condvar::new(),
        }
    }

    /// As std's.
    ///
    /// # Errors
    ///
    /// If the mutex is poisoned; the error has the guard.
    #[track_caller]
    pub fn wait<'a, T>(&self, guard: MutexGuard<'a, T>) -> LockResult<MutexGuard<'a, T>> {
        let (object, inner) = given_back(guard);
        let place = Location::caller();
        held(self.inner.wait(inner), |guard| {
            MutexGuard::new(object, guard, place)
        })
    }

    /// As std's.
    ///
    /// # Errors
    ///
    /// If the mutex is poisoned; the error has the guard.
    #[track_caller]
    pub fn wait_while<'a, T, F>(
        &self,
        mut guard: MutexGuard<'a, T>,
        mut condition: F,
    ) -> LockResult<MutexGuard<'a, T>>
    where
        F: FnMut(&mut T) -> bool,
    {
        while condition(&mut guard) {
            guard = self.wait(guard)?;
        }
        Ok(guard)
    }

    /// As std's.
    ///
    /// # Errors
    ///
    /// If the mutex is poisoned; the error has the guard.
    #[track_caller]
    pub fn wait_timeout<'a, T>(
        &self,
        guard: MutexGuard<'a, T>,
        timeout: Duration,
    ) -> LockResult<(MutexGuard<'a, T>, WaitTimeoutResult)> {
        let (object, inner) = given_back(guard);
        let place = Location::caller();
        held(self.inner.wait_timeout(inner, timeout), |(guard, why)| {
            (MutexGuard::new(object, guard, place), why)
        })
    }

    /// As std's.
    ///
    /// # Errors
    ///
    /// If the mutex is poisoned; the error has the guard.
    #[track_caller]
    pub fn wait_timeout_while<'a, T, F>(
        &self,
        guard: MutexGuard<'a, T>,
        timeout: Duration,
        mut condition: F,
    ) -> LockResult<(MutexGuard<'a, T>, WaitTimeoutResult)>
    where
        F: FnMut(&mut T) -> bool,
    {
        let (object, inner) = given_back(guard);
        let place = Location::caller();
        // std's own loop, which looks while the mutex is held: the hold is told around each look, and lasts after the one that is last
        let looked = self.inner.wait_timeout_while(inner, timeout, |value| {
            let told = Told::new(object, Kind::Acquire, place);
            let again = condition(value);
            drop(told);
            again
        });
        held(looked, |(guard, why)| {
            (MutexGuard::new(object, guard, place), why)
        })
    }

    /// As std's.
    pub fn notify_one(&self) {
        self.inner.notify_one();
    }

    /// As std's.
    pub fn notify_all(&self) {
        self.inner.notify_all();
    }
}

/// The release of the mutex is told; std's guard still has it.
fn given_back<T: ?Sized>(guard: MutexGuard<'_, T>) -> (&Object, real::MutexGuard<'_, T>) {
    let MutexGuard { _told: told, inner } = guard;
    let object = told.object;
    drop(told);
    (object, inner)
}

/// [`std::sync::Once`]: its closure is told as a write, and to find it done as a read.
///
/// ```
/// let once = velodrome::sync::Once::new();
/// once.call_once(|| println!("first"));
/// assert!(once.is_completed());
/// ```
pub struct Once {
    object: Object,
    done: real::atomic::AtomicBool, // changed in the hold that the write is told in, which std's own state is not
    inner: real::Once,
}

impl Once {
    /// As std's.
    #[must_use]
    #[track_caller]
    #[allow(clippy::new_without_default)] // as std's
    pub const fn new() -> Once {
        Once {
            object: Object::new("Once", Location::caller()),
            done: real::atomic::AtomicBool::new(false),
            inner: real::Once::new(),
        }
    }

    /// As std's.
    #[track_caller]
    pub fn call_once(&self, body: impl FnOnce()) {
        let place = Location::caller();
        self.inner.call_once(|| {
            body();
            self.finish(place);
        });
        self.object.tell(Kind::Read, place);
    }

    /// As std's.
    #[track_caller]
    pub fn call_once_force(&self, body: impl FnOnce(&OnceState)) {
        let place = Location::caller();
        self.inner.call_once_force(|state| {
            body(state);
            self.finish(place);
        });
        self.object.tell(Kind::Read, place);
    }

    /// As std's.
    #[must_use]
    #[track_caller]
    pub fn is_completed(&self) -> bool {
        let _access = self.object.access(Kind::Read, Location::caller());
        self.done.load(real::atomic::Ordering::Acquire)
    }

    /// As std's, from Rust 1.86 on.
    #[cfg(rust_1_86)]
    #[track_caller]
    #[allow(clippy::incompatible_msrv)] // see the `cfg`
    pub fn wait(&self) {
        self.inner.wait();
        self.object.tell(Kind::Read, Location::caller());
    }

    fn finish(&self, place: Place) {
        let _access = self.object.access(Kind::Write, place);
        self.done.store(true, real::atomic::Ordering::Release);
    }
}

impl fmt::Debug for Once {
    fn fmt(&self, f: &mut fmt::Formatter<'_>) -> fmt::Result {
        self.inner.fmt(f)
    }
}

/// [`std::sync::Barrier`]: to come is told as a write, and to go as a read.
///
/// ```
/// assert!(velodrome::sync::Barrier::new(1).wait().is_leader());
/// ```
pub struct Barrier {
    object: Object,
    inner: real::Barrier,
}

impl Barrier {
    /// As std's.
    #[must_use]
    #[track_caller]
    pub const fn new(threads: usize) -> Barrier {
        Barrier {
            object: Object::new("Barrier", Location::caller()),
            inner: real::Barrier::new(threads),
        }
    }

    /// As std's.
    #[track_caller]
    pub fn wait(&self) -> BarrierWaitResult {
        let place = Location::caller();
        self.object.tell(Kind::Write, place);
        let result = self.inner.wait();
        self.object.tell(Kind::Read, place);
        result
    }
}

impl fmt::Debug for Barrier {
    fn fmt(&self, f: &mut fmt::Formatter<'_>) -> fmt::Result {
        self.inner.fmt(f)
    }
}
