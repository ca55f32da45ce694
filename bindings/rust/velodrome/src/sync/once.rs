//! Values that are made once.
use super::{real, Kind, Object, Place};
use std::fmt;
use std::ops::Deref;
use std::panic::{Location, RefUnwindSafe, UnwindSafe};
use std::sync::PoisonError;

/// [`std::sync::OnceLock`]: to make the value is told as a write, and to look for it as a read.
///
/// ```
/// use velodrome::sync::OnceLock;
/// static NAME: OnceLock<String> = OnceLock::new();
/// assert_eq!(NAME.get(), None);
/// assert_eq!(NAME.get_or_init(|| "bank".into()), "bank");
/// assert_eq!(NAME.set("other".into()), Err("other".into()));
/// ```
pub struct OnceLock<T> {
    object: Object,
    made: real::atomic::AtomicBool, // changed in the hold that the write is told in, which std's own state is not
    inner: real::OnceLock<T>,
}

impl<T> OnceLock<T> {
    /// As std's. Reports name it by this place in the source.
    #[must_use]
    #[track_caller]
    pub const fn new() -> Self {
        OnceLock {
            object: Object::new("OnceLock", Location::caller()),
            made: real::atomic::AtomicBool::new(false),
            inner: real::OnceLock::new(),
        }
    }

    /// As std's.
    #[track_caller]
    pub fn get(&self) -> Option<&T> {
        let access = self.object.access(Kind::Read, Location::caller());
        let made = self.made.load(real::atomic::Ordering::Acquire);
        drop(access);
        // who told that it is made puts it there next
        while made && self.inner.get().is_none() {
            std::thread::yield_now();
        }
        if made {
            self.inner.get()
        } else {
            None
        }
    }

    /// As std's.
    #[track_caller]
    pub fn get_or_init<F: FnOnce() -> T>(&self, make: F) -> &T {
        let place = Location::caller();
        let value = self.inner.get_or_init(|| {
            let value = make();
            self.finish(place);
            value
        });
        self.object.tell(Kind::Read, place);
        value
    }

    /// As std's.
    ///
    /// # Errors
    ///
    /// The value, where there is one already.
    #[track_caller]
    pub fn set(&self, value: T) -> Result<(), T> {
        let mut value = Some(value);
        let place = Location::caller();
        self.inner.get_or_init(|| {
            self.finish(place);
            value.take().expect("it is made once")
        });
        self.object.tell(Kind::Read, place);
        value.map_or(Ok(()), Err)
    }

    /// As std's. It is not told, as no other thread has it.
    pub fn get_mut(&mut self) -> Option<&mut T> {
        self.inner.get_mut()
    }

    /// As std's. It is not told, as no other thread has it.
    pub fn take(&mut self) -> Option<T> {
        *self.made.get_mut() = false;
        self.inner.take()
    }

    /// As std's. It is not told, as no other thread has it.
    pub fn into_inner(self) -> Option<T> {
        self.inner.into_inner()
    }

    fn finish(&self, place: Place) {
        let _access = self.object.access(Kind::Write, place);
        self.made.store(true, real::atomic::Ordering::Release);
    }
}

impl<T> Default for OnceLock<T> {
    #[track_caller]
    fn default() -> Self {
        OnceLock::new()
    }
}

impl<T> From<T> for OnceLock<T> {
    #[track_caller]
    fn from(value: T) -> Self {
        OnceLock {
            object: Object::new("OnceLock", Location::caller()),
            made: real::atomic::AtomicBool::new(true),
            inner: real::OnceLock::from(value),
        }
    }
}

/// It is not told.
impl<T: Clone> Clone for OnceLock<T> {
    #[track_caller]
    fn clone(&self) -> Self {
        self.inner
            .get()
            .map_or_else(OnceLock::new, |value| value.clone().into())
    }
}

/// It is not told.
impl<T: PartialEq> PartialEq for OnceLock<T> {
    fn eq(&self, other: &Self) -> bool {
        self.inner == other.inner
    }
}

impl<T: Eq> Eq for OnceLock<T> {}

/// It is not told.
impl<T: fmt::Debug> fmt::Debug for OnceLock<T> {
    fn fmt(&self, f: &mut fmt::Formatter<'_>) -> fmt::Result {
        self.inner.fmt(f)
    }
}

/// [`std::sync::LazyLock`]: to make the value is told as a write, and to use it as a read.
///
/// ```
/// use velodrome::sync::LazyLock;
/// static PRICES: LazyLock<Vec<u32>> = LazyLock::new(|| vec![1, 2]);
/// assert_eq!(PRICES.len(), 2);
/// ```
pub struct LazyLock<T, F = fn() -> T> {
    value: OnceLock<T>,
    make: real::Mutex<Option<F>>,
}

impl<T, F: FnOnce() -> T> LazyLock<T, F> {
    /// As std's. Reports name it by this place in the source.
    #[track_caller]
    pub const fn new(make: F) -> Self {
        LazyLock {
            value: OnceLock {
                object: Object::new("LazyLock", Location::caller()),
                made: real::atomic::AtomicBool::new(false),
                inner: real::OnceLock::new(),
            },
            make: real::Mutex::new(Some(make)),
        }
    }

    /// As std's.
    ///
    /// # Panics
    ///
    /// Where its function has panicked before.
    #[track_caller]
    pub fn force(this: &Self) -> &T {
        this.value.get_or_init(|| {
            let make = this
                .make
                .lock()
                .unwrap_or_else(PoisonError::into_inner)
                .take();
            match make {
                Some(make) => make(),
                None => panic!("LazyLock instance has previously been poisoned"),
            }
        })
    }
}

impl<T, F: FnOnce() -> T> Deref for LazyLock<T, F> {
    type Target = T;
    #[track_caller]
    fn deref(&self) -> &T {
        LazyLock::force(self)
    }
}

impl<T: Default> Default for LazyLock<T> {
    #[track_caller]
    fn default() -> Self {
        LazyLock::new(T::default)
    }
}

/// As std's: a function that panics leaves it poisoned, which is seen.
impl<T: RefUnwindSafe + UnwindSafe, F: UnwindSafe> RefUnwindSafe for LazyLock<T, F> {}

/// It is not told.
impl<T: fmt::Debug, F> fmt::Debug for LazyLock<T, F> {
    fn fmt(&self, f: &mut fmt::Formatter<'_>) -> fmt::Result {
        let mut text = f.debug_tuple("LazyLock");
        match self.value.inner.get() {
            Some(value) => text.field(value),
            None => text.field(&format_args!("<uninit>")),
        };
        text.finish()
    }
}
