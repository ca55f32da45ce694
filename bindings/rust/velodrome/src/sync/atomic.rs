//! `std::sync::atomic`, told. What reads and writes is one write; a compare-exchange that fails is a read.
//!
//! ```
//! use velodrome::sync::atomic::{AtomicU32, Ordering};
//! static HITS: AtomicU32 = AtomicU32::new(0);
//! HITS.fetch_add(1, Ordering::Relaxed);
//! assert_eq!(HITS.load(Ordering::Relaxed), 1);
//! ```
//!
//! There is no `from_ptr`, as each of them has an identity beside its value.
use crate::session::{Kind, Object, Place};
use std::fmt;
use std::panic::Location;
use std::sync::atomic as real;

pub use std::sync::atomic::{compiler_fence, fence, Ordering};

/// A compare-exchange: which it was is known once it is done.
fn exchanged<V>(
    object: &Object,
    place: Place,
    exchange: impl FnOnce() -> Result<V, V>,
) -> Result<V, V> {
    let _hold = object.hold();
    let result = exchange();
    object.tell(
        if result.is_ok() {
            Kind::Write
        } else {
            Kind::Read
        },
        place,
    );
    result
}

/// What all of them have.
macro_rules! atomic {
    ($name:ident $(<$t:ident>)?, $value:ty) => {
        #[doc = concat!("[`std::sync::atomic::", stringify!($name), "`], told.")]
        pub struct $name $(<$t>)? {
            object: Object,
            inner: real::$name $(<$t>)?,
        }

        impl $(<$t>)? $name $(<$t>)? {
            /// As std's. Reports name it by this place in the source.
            #[must_use]
            #[track_caller]
            pub const fn new(value: $value) -> Self {
                $name { object: Object::new(stringify!($name), Location::caller()), inner: real::$name::new(value) }
            }

            /// As std's.
            #[track_caller]
            #[inline]
            pub fn load(&self, order: Ordering) -> $value {
                let _access = self.object.access(Kind::Read, Location::caller());
                self.inner.load(order)
            }

            /// As std's.
            #[track_caller]
            #[inline]
            pub fn store(&self, value: $value, order: Ordering) {
                let _access = self.object.access(Kind::Write, Location::caller());
                self.inner.store(value, order);
            }

            atomic!(@write $value: swap);

            /// As std's.
            ///
            /// # Errors
            ///
            /// The value that it has, if that is another than `current`.
            #[track_caller]
            #[inline]
            pub fn compare_exchange(
                &self,
                current: $value,
                new: $value,
                success: Ordering,
                failure: Ordering,
            ) -> Result<$value, $value> {
                exchanged(&self.object, Location::caller(), || self.inner.compare_exchange(current, new, success, failure))
            }

            /// As std's.
            ///
            /// # Errors
            ///
            /// The value that it has, if that is another than `current`, or by chance.
            #[track_caller]
            #[inline]
            pub fn compare_exchange_weak(
                &self,
                current: $value,
                new: $value,
                success: Ordering,
                failure: Ordering,
            ) -> Result<$value, $value> {
                exchanged(&self.object, Location::caller(), || self.inner.compare_exchange_weak(current, new, success, failure))
            }

            /// As std's: its reads and its write are told as such.
            ///
            /// # Errors
            ///
            /// The value that it has, if the closure returns none.
            #[track_caller]
            pub fn fetch_update<F>(&self, set_order: Ordering, fetch_order: Ordering, mut update: F) -> Result<$value, $value>
            where
                F: FnMut($value) -> Option<$value>,
            {
                let mut value = self.load(fetch_order);
                while let Some(next) = update(value) {
                    match self.compare_exchange_weak(value, next, set_order, fetch_order) {
                        Ok(old) => return Ok(old),
                        Err(other) => value = other,
                    }
                }
                Err(value)
            }

            /// As std's, of Rust 1.95: [`fetch_update`](Self::fetch_update) by its other name.
            ///
            /// # Errors
            ///
            /// The value that it has, if the closure returns none.
            #[track_caller]
            pub fn try_update(
                &self,
                set_order: Ordering,
                fetch_order: Ordering,
                update: impl FnMut($value) -> Option<$value>,
            ) -> Result<$value, $value> {
                self.fetch_update(set_order, fetch_order, update)
            }

            /// As std's, of Rust 1.95: its reads and its write are told as such.
            #[track_caller]
            pub fn update(&self, set_order: Ordering, fetch_order: Ordering, mut update: impl FnMut($value) -> $value) -> $value {
                let mut value = self.load(fetch_order);
                while let Err(other) = self.compare_exchange_weak(value, update(value), set_order, fetch_order) {
                    value = other;
                }
                value
            }

            /// As std's. What is done by the pointer is not told.
            pub const fn as_ptr(&self) -> *mut $value {
                self.inner.as_ptr()
            }

            /// As std's. It is not told, as no other thread has it.
            pub fn get_mut(&mut self) -> &mut $value {
                self.inner.get_mut()
            }

            /// As std's. It is not told, as no other thread has it.
            pub fn into_inner(self) -> $value {
                self.inner.into_inner()
            }
        }

        impl $(<$t>)? From<$value> for $name $(<$t>)? {
            #[track_caller]
            fn from(value: $value) -> Self {
                $name::new(value)
            }
        }

        /// It is not told.
        impl $(<$t>)? fmt::Debug for $name $(<$t>)? {
            fn fmt(&self, f: &mut fmt::Formatter<'_>) -> fmt::Result {
                self.inner.fmt(f)
            }
        }
    };
    (@write $value:ty: $($call:ident)*) => { $(
        /// As std's.
        #[track_caller]
        #[inline]
        pub fn $call(&self, value: $value, order: Ordering) -> $value {
            let _access = self.object.access(Kind::Write, Location::caller());
            self.inner.$call(value, order)
        }
    )* };
}

macro_rules! integers {
    ($($name:ident $value:ty),*) => { $(
        atomic!($name, $value);

        impl $name {
            atomic!(@write $value: fetch_add fetch_sub fetch_and fetch_nand fetch_or fetch_xor fetch_max fetch_min);
        }

        impl Default for $name {
            #[track_caller]
            fn default() -> Self {
                $name::new(0)
            }
        }
    )* };
}

integers!(AtomicI8 i8, AtomicI16 i16, AtomicI32 i32, AtomicI64 i64, AtomicIsize isize);
integers!(AtomicU8 u8, AtomicU16 u16, AtomicU32 u32, AtomicU64 u64, AtomicUsize usize);

atomic!(AtomicBool, bool);

impl AtomicBool {
    atomic!(@write bool: fetch_and fetch_nand fetch_or fetch_xor);

    /// As std's.
    #[track_caller]
    pub fn fetch_not(&self, order: Ordering) -> bool {
        self.fetch_xor(true, order)
    }
}

impl Default for AtomicBool {
    #[track_caller]
    fn default() -> Self {
        AtomicBool::new(false)
    }
}

atomic!(AtomicPtr<T>, *mut T);

impl<T> Default for AtomicPtr<T> {
    #[track_caller]
    fn default() -> Self {
        AtomicPtr::new(std::ptr::null_mut())
    }
}
