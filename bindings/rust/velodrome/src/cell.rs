//! A shared variable for what has no type in std: what an `UnsafeCell` or a `static mut` would be.
use crate::session::{Hold, Kind, Object};
use std::ffi::CStr;
use std::fmt;
use std::panic::Location;
use std::sync::{
    PoisonError, RwLock, RwLockReadGuard, RwLockWriteGuard, TryLockError, TryLockResult,
};

/// A variable whose reads and writes are recorded, each on its own: a data race of the program is two accesses in some order.
///
/// Code of the user, such as `Clone`, `Drop` and the closures, runs while no lock of the session is held, so it may use
/// other variables; a closure may not use its own, which waits for ever or panics as std's `RwLock` does.
///
/// ```
/// use velodrome::cell::Var;
/// static HITS: Var<u64> = Var::named(c"hits", 0);
/// HITS.set(HITS.get() + 1);
/// assert_eq!(HITS.get(), 1);
/// ```
///
/// It may be shared where std's `RwLock` may, as closures of two threads may read it at once:
///
/// ```compile_fail,E0277
/// static COUNT: velodrome::cell::Var<std::cell::Cell<u32>> = velodrome::cell::Var::new(std::cell::Cell::new(0));
/// ```
pub struct Var<T: ?Sized> {
    object: Object,
    value: RwLock<T>,
}

impl<T> Var<T> {
    /// Named by this place in the source.
    #[track_caller]
    pub const fn new(value: T) -> Var<T> {
        Var {
            object: Object::new("Var", Location::caller()),
            value: RwLock::new(value),
        }
    }

    /// With a name for reports: `Var::named(c"balance", 0)`.
    #[track_caller]
    pub const fn named(name: &'static CStr, value: T) -> Var<T> {
        Var {
            object: Object::named(name, Location::caller()),
            value: RwLock::new(value),
        }
    }

    /// The value. This is not recorded, as no thread shares it.
    pub fn into_inner(self) -> T {
        self.value
            .into_inner()
            .unwrap_or_else(PoisonError::into_inner)
    }

    /// Writes it. What it had is dropped afterwards.
    #[track_caller]
    pub fn set(&self, value: T) {
        drop(self.replace(value));
    }

    /// Writes it, and returns what it had.
    #[track_caller]
    pub fn replace(&self, value: T) -> T {
        self.with_mut(|old| std::mem::replace(old, value))
    }
}

impl<T: Clone> Var<T> {
    /// Reads it.
    #[track_caller]
    pub fn get(&self) -> T {
        self.with(T::clone)
    }
}

impl<T: Default> Var<T> {
    /// Writes the default, and returns what it had.
    #[track_caller]
    pub fn take(&self) -> T {
        self.replace(T::default())
    }
}

impl<T: ?Sized> Var<T> {
    /// Reads it by a closure.
    #[track_caller]
    pub fn with<R>(&self, read: impl FnOnce(&T) -> R) -> R {
        let place = Location::caller();
        let value = self.alone(
            || self.value.try_read(),
            || drop(self.value.read()),
            || self.object.tell(Kind::Read, place),
        );
        let value: RwLockReadGuard<'_, T> = value;
        read(&value)
    }

    /// Writes it by a closure. That it may read it too is no event of its own.
    #[track_caller]
    pub fn with_mut<R>(&self, write: impl FnOnce(&mut T) -> R) -> R {
        let place = Location::caller();
        let value = self.alone(
            || self.value.try_write(),
            || drop(self.value.write()),
            || self.object.tell(Kind::Write, place),
        );
        let mut value: RwLockWriteGuard<'_, T> = value;
        write(&mut value)
    }

    /// The value. This is not recorded, as no other thread has it.
    pub fn get_mut(&mut self) -> &mut T {
        self.value.get_mut().unwrap_or_else(PoisonError::into_inner)
    }

    /// Takes the guard of the value, and reports the access in one hold of the session's lock; so conflicting accesses are recorded in
    /// the order in which they have the guard. Waits without that lock.
    fn alone<G>(
        &self,
        take: impl Fn() -> TryLockResult<G>,
        wait: impl Fn(),
        tell: impl FnOnce(),
    ) -> G {
        loop {
            let hold: Hold = self.object.hold();
            let taken = match take() {
                Ok(guard) => Some(guard),
                Err(TryLockError::Poisoned(poisoned)) => Some(poisoned.into_inner()),
                Err(TryLockError::WouldBlock) => None,
            };
            if let Some(guard) = taken {
                tell();
                return guard;
            }
            drop(hold);
            wait();
        }
    }
}

impl<T: Default> Default for Var<T> {
    #[track_caller]
    fn default() -> Var<T> {
        Var::new(T::default())
    }
}

impl<T> From<T> for Var<T> {
    #[track_caller]
    fn from(value: T) -> Var<T> {
        Var::new(value)
    }
}

/// It is not recorded.
impl<T: ?Sized + fmt::Debug> fmt::Debug for Var<T> {
    fn fmt(&self, f: &mut fmt::Formatter<'_>) -> fmt::Result {
        let mut text = f.debug_tuple("Var");
        match self.value.try_read() {
            Ok(value) => text.field(&&*value),
            Err(TryLockError::Poisoned(poisoned)) => text.field(&&**poisoned.get_ref()),
            Err(TryLockError::WouldBlock) => text.field(&format_args!("<in use>")),
        };
        text.finish()
    }
}
