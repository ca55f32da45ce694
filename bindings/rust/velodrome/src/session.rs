//! The calls of the session layer, safe.
use std::collections::BTreeMap;
use std::ffi::{c_char, c_uint, CStr, CString};
use std::marker::PhantomData;
use std::panic::Location;
use std::ptr::{null, null_mut};
use std::sync::atomic::{AtomicPtr, AtomicU64, Ordering};
use std::sync::PoisonError;
use velodrome_sys as sys;

pub(crate) use sys::{vs_block as Begun, vs_child as Child};

/// Where an event stands in the source.
pub(crate) type Place = &'static Location<'static>;

#[derive(Clone, Copy)]
pub(crate) enum Kind {
    Read = sys::VS_READ as isize,
    Write = sys::VS_WRITE as isize,
    Acquire = sys::VS_ACQUIRE as isize,
    Release = sys::VS_RELEASE as isize,
    AcquireShared = sys::VS_ACQUIRE_SHARED as isize,
    ReleaseShared = sys::VS_RELEASE_SHARED as isize,
}

/// Whether nothing is recorded, in any session.
fn idle() -> bool {
    // SAFETY: C changes it by atomic operations.
    unsafe { sys::vs_recording.load(Ordering::Relaxed) == 0 }
}

fn in_c(place: Place) -> sys::vs_place {
    let file = place.file();
    sys::vs_place {
        file: file.as_ptr().cast(),
        file_bytes: u32::try_from(file.len()).unwrap_or(0),
        line: place.line(),
    }
}

/// What makes a variable, a lock or a label one that the session distinguishes from all others.
#[derive(Debug)]
pub struct Object {
    raw: sys::vs_object,
    what: &'static str,
    place: Place,
}

impl Object {
    /// Named by what it is and the place.
    pub(crate) const fn new(what: &'static str, place: Place) -> Object {
        Object {
            raw: unmet(null_mut()),
            what,
            place,
        }
    }

    pub(crate) const fn named(name: &'static CStr, place: Place) -> Object {
        Object {
            raw: unmet(name.as_ptr().cast_mut()),
            what: "",
            place,
        }
    }

    /// As C has it, with a name.
    fn raw(&self) -> *const sys::vs_object {
        if self.raw.name.load(Ordering::Acquire).is_null() {
            self.raw.name.store(
                name_of(self.what, self.place).as_ptr().cast_mut(),
                Ordering::Release,
            );
        }
        &self.raw
    }

    pub(crate) fn tell(&self, kind: Kind, place: Place) {
        if !idle() {
            // SAFETY: the object and the place outlive the call, and the file is a literal.
            unsafe { sys::vs_tell_at(self.raw(), kind as sys::vs_kind, &in_c(place)) }
        }
    }

    /// Reports what has no place, such as the end of a scope.
    pub(crate) fn tell_unplaced(&self, kind: Kind) {
        if !idle() {
            // SAFETY: the object outlives the call.
            unsafe { sys::vs_tell_at(self.raw(), kind as sys::vs_kind, null()) }
        }
    }

    /// Reports an access, which is to be done before the value is dropped.
    pub(crate) fn access(&self, kind: Kind, place: Place) -> Hold {
        // SAFETY: as in `tell`.
        Hold::new(|| unsafe { sys::vs_before_at(self.raw(), kind as sys::vs_kind, &in_c(place)) })
    }

    /// Reports nothing, and lets no other thread of the session report anything before the value is dropped.
    pub(crate) fn hold(&self) -> Hold {
        // SAFETY: the object outlives the call.
        Hold::new(|| unsafe { sys::vs_hold(self.raw()) })
    }
}

const fn unmet(name: *mut c_char) -> sys::vs_object {
    sys::vs_object {
        tag: AtomicU64::new(0),
        name: AtomicPtr::new(name),
        line: 0,
    }
}

/// The name of what was made at this place. It is kept for good: the number of places is bounded.
fn name_of(what: &'static str, place: Place) -> &'static CStr {
    type Key = (&'static str, &'static str, u32);
    static NAMES: std::sync::Mutex<BTreeMap<Key, &'static CStr>> =
        std::sync::Mutex::new(BTreeMap::new());
    let mut names = NAMES.lock().unwrap_or_else(PoisonError::into_inner);
    names
        .entry((what, place.file(), place.line()))
        .or_insert_with(|| {
            let file = place.file().rsplit(['/', '\\']).next().unwrap_or_default();
            let name = format!("{what} ({file}:{})", place.line()).replace('\0', " ");
            Box::leak(CString::new(name).unwrap_or_default().into_boxed_c_str())
        })
}

/// The session's lock. No code of the user runs while it is held.
pub(crate) struct Hold {
    token: c_uint,
    stays: PhantomData<*const ()>,
}

impl Hold {
    fn new(take: impl FnOnce() -> c_uint) -> Hold {
        Hold {
            token: if idle() { 0 } else { take() },
            stays: PhantomData,
        }
    }
}

impl Drop for Hold {
    fn drop(&mut self) {
        if self.token != 0 {
            // SAFETY: the token is of this thread, and used once.
            unsafe { sys::vs_after(self.token) }
        }
    }
}

/// A block of who acts begins.
pub(crate) fn begin(label: &'static Object) -> Begun {
    // SAFETY: the label stays.
    unsafe { sys::vs_begin_block(label.raw()) }
}

pub(crate) fn end(block: Begun) {
    // SAFETY: numbers alone.
    unsafe { sys::vs_end_block(block) }
}

/// Who acts, where that is no thread. Null, where there was no memory for it: the thread acts as itself then.
#[derive(Debug)]
pub(crate) struct Someone(*mut sys::vs_self);

// SAFETY: a thread acts as it only within `act`, which borrows it, so no thread does while it is moved to another.
unsafe impl Send for Someone {}

impl Someone {
    pub(crate) fn new() -> Someone {
        // SAFETY: it takes nothing.
        Someone(unsafe { sys::vs_self_new() })
    }

    pub(crate) fn act<T>(&mut self, body: impl FnOnce() -> T) -> T {
        struct Before(*mut sys::vs_self);
        impl Drop for Before {
            fn drop(&mut self) {
                // SAFETY: it is null, or acts further out in this thread, where `act` borrows it.
                unsafe { sys::vs_switch(self.0) };
            }
        }
        // SAFETY: it lives as long as `self`, and `Before` ends its acting before that, also where the body panics.
        let _before = Before(unsafe { sys::vs_switch(self.0) });
        body()
    }
}

impl Drop for Someone {
    fn drop(&mut self) {
        // SAFETY: nobody acts as it, as `act` borrows it, and it is not used any more.
        unsafe { sys::vs_self_free(self.0) }
    }
}

/// Before the start of a thread.
pub(crate) fn fork(place: Place) -> Child {
    // SAFETY: the place outlives the call, and the file is a literal.
    unsafe { sys::vs_fork_at(&in_c(place)) }
}

/// Acts as the child from here on, until the value is dropped, which is the child's end.
pub(crate) fn born(child: Child) -> Life {
    // SAFETY: numbers alone.
    unsafe { sys::vs_born(child) };
    Life(child)
}

/// Reports the end of a child, also where its body panics.
pub(crate) struct Life(Child);

impl Drop for Life {
    fn drop(&mut self) {
        unborn(self.0);
    }
}

/// The end of a child, or its thread could not be started.
pub(crate) fn unborn(child: Child) {
    // SAFETY: numbers alone.
    unsafe { sys::vs_exit(child) }
}

pub(crate) fn join(child: Child, place: Place) {
    // SAFETY: the place outlives the call, and the file is a literal.
    unsafe { sys::vs_join_at(child, &in_c(place)) }
}

/// A session of this thread, closed where it is dropped.
pub(crate) struct Session {
    number: sys::vs_session,
    stays: PhantomData<*const ()>,
}

/// What a session came to: the verdict, the report, and whether a test fails by it.
pub(crate) struct End {
    pub(crate) verdict: sys::vs_verdict,
    pub(crate) report: String,
    pub(crate) fails: bool,
}

impl Session {
    pub(crate) fn open(options: &sys::vs_options, everywhere: bool) -> Session {
        // SAFETY: the options outlive the call.
        let number = unsafe { sys::vs_open(options, everywhere) };
        let stays = PhantomData;
        Session { number, stays }
    }

    /// Leaves out what has this name, from here on.
    pub(crate) fn ignore(&self, kind: sys::vs_named, name: &str) {
        let name = CString::new(name.replace('\0', "")).unwrap_or_default();
        // SAFETY: the name outlives the call.
        unsafe { sys::vs_ignore(self.number, kind, name.as_ptr()) };
    }

    pub(crate) fn close(mut self) -> End {
        let mut report = null_mut();
        // SAFETY: `report` is a place of ours.
        let verdict = unsafe { sys::vs_close(std::mem::take(&mut self.number), &mut report) };
        End {
            verdict,
            report: text(report),
            fails: false,
        }
    }

    /// Closes it as a test's, whose log is kept under this name.
    pub(crate) fn finish(mut self, name: &str) -> End {
        let name = CString::new(name.replace('\0', "")).unwrap_or_default();
        let (mut report, mut fails) = (null_mut(), false);
        // SAFETY: the name outlives the call, and the other two are places of ours.
        let verdict = unsafe {
            sys::vs_finish(
                std::mem::take(&mut self.number),
                name.as_ptr(),
                &mut report,
                &mut fails,
            )
        };
        End {
            verdict,
            report: text(report),
            fails,
        }
    }
}

impl Drop for Session {
    fn drop(&mut self) {
        if self.number != 0 {
            // SAFETY: a report is not asked for.
            unsafe { sys::vs_close(self.number, null_mut()) };
        }
    }
}

/// Takes a text of the layer.
fn text(report: *mut c_char) -> String {
    if report.is_null() {
        return String::new();
    }
    // SAFETY: the layer's texts end in a zero byte, and this one is ours.
    let text = unsafe { CStr::from_ptr(report) }
        .to_string_lossy()
        .into_owned();
    // SAFETY: it came from the layer, and is not used any more.
    unsafe { sys::vs_free(report) };
    text
}

/// What the environment asks for.
pub(crate) fn environment(mut options: sys::vs_options) -> sys::vs_options {
    // SAFETY: the options are ours.
    unsafe { sys::vs_environment(&mut options) };
    options
}
