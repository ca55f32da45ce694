//! The calls of `velodrome_session.h`, as C has them, for the crate `velodrome`. Use that crate.
//!
//! None of them fails its caller. A number of a session that is over does nothing, and so does 0, that of none.
#![no_std]
#![allow(non_camel_case_types)]
use core::ffi::{c_char, c_int, c_uint, c_void};
use core::marker::{PhantomData, PhantomPinned};
use core::sync::atomic::{AtomicPtr, AtomicU32, AtomicU64};

/// A session; 0: none.
pub type vs_session = u64;

/// What stands in a variable or lock, and for a label. It is moved only while no thread uses it.
#[repr(C)]
#[derive(Debug)]
pub struct vs_object {
    /// 0 at first, the session's then.
    pub tag: AtomicU64,
    /// Null, or a string that ends in a zero byte.
    pub name: AtomicPtr<c_char>,
    /// 0; else the name is that of a source file.
    pub line: u64,
}

/// What is done with a variable or lock.
pub type vs_kind = c_int;
/// A read of a variable.
pub const VS_READ: vs_kind = 0;
/// A write of a variable, also one that reads it.
pub const VS_WRITE: vs_kind = 1;
/// A lock was taken.
pub const VS_ACQUIRE: vs_kind = 2;
/// A lock will be released.
pub const VS_RELEASE: vs_kind = 3;
/// A lock was taken for reading.
pub const VS_ACQUIRE_SHARED: vs_kind = 4;
/// A lock that was taken for reading will be released.
pub const VS_RELEASE_SHARED: vs_kind = 5;

/// What a session came to.
pub type vs_verdict = c_int;
/// There is a serial order of the blocks.
pub const VS_CLEAN: vs_verdict = 0;
/// There is none.
pub const VS_ALARM: vs_verdict = 3;
/// It could not be watched to its end.
pub const VS_INCOMPLETE: vs_verdict = 4;

/// Where an event stands in the source.
#[repr(C)]
#[derive(Clone, Copy, Debug)]
pub struct vs_place {
    /// The bytes of the file's name, which stay until the session is closed.
    pub file: *const c_char,
    /// How many they are.
    pub file_bytes: u32,
    /// The line.
    pub line: u32,
}

/// How a session is watched. All zero: the defaults.
#[repr(C)]
#[derive(Clone, Copy, Debug)]
pub struct vs_options {
    /// Most events between two cuts.
    pub events: u32,
    /// Most variables between two cuts.
    pub variables: u16,
    /// Most locks between two cuts.
    pub locks: u16,
    /// One event in `noise` waits.
    pub noise: u32,
    /// Which ones.
    pub seed: u64,
    /// Called at the alarm with `data` and a `vs_alarm`.
    pub alarm: Option<unsafe extern "C" fn(data: *mut c_void, alarm: *const c_void)>,
    /// For `alarm`.
    pub data: *mut c_void,
    /// How a thread waits.
    pub wait: Option<unsafe extern "C" fn(nanoseconds: u32)>,
}

impl vs_options {
    /// The defaults.
    pub const DEFAULT: vs_options = vs_options {
        events: 0,
        variables: 0,
        locks: 0,
        noise: 0,
        seed: 0,
        alarm: None,
        data: core::ptr::null_mut(),
        wait: None,
    };
}

/// A thread that another one starts.
#[repr(C)]
#[derive(Clone, Copy, Debug)]
pub struct vs_child {
    /// The session of both.
    pub session: vs_session,
    /// Its number there.
    pub who: u64,
}

/// A block, by which it ends.
#[repr(C)]
#[derive(Clone, Copy, Debug)]
pub struct vs_block {
    /// Who began it; 0: nothing was recorded then.
    pub who: u64,
    /// Which of theirs.
    pub nth: u64,
}

/// What a name is of.
pub type vs_named = c_int;
/// Of variables.
pub const VS_NAMED_VARIABLE: vs_named = 0;
/// Of locks.
pub const VS_NAMED_LOCK: vs_named = 1;
/// Of blocks.
pub const VS_NAMED_LABEL: vs_named = 2;

/// Who acts, where that is no thread.
#[repr(C)]
#[derive(Debug)]
pub struct vs_self {
    bytes: [u8; 0],
    marker: PhantomData<(*mut u8, PhantomPinned)>,
}

extern "C" {
    /// How many sessions record.
    pub static vs_recording: AtomicU32;
    /// Sets what the environment asks for.
    pub fn vs_environment(options: *mut vs_options);
    /// Opens a session, and enters it.
    pub fn vs_open(options: *const vs_options, everywhere: bool) -> vs_session;
    /// Ends a session.
    pub fn vs_close(session: vs_session, report: *mut *mut c_char) -> vs_verdict;
    /// Ends a session at the end of a test: the log of an alarm is kept.
    pub fn vs_finish(
        session: vs_session,
        name: *const c_char,
        report: *mut *mut c_char,
        fails: *mut bool,
    ) -> vs_verdict;
    /// The verdict so far.
    pub fn vs_so_far(session: vs_session) -> vs_verdict;
    /// Writes the log and the names.
    pub fn vs_save(session: vs_session, path: *const c_char) -> bool;
    /// Frees a report.
    pub fn vs_free(text: *mut c_char);
    /// Enters a session.
    pub fn vs_enter(session: vs_session);
    /// The session of this thread.
    pub fn vs_current() -> vs_session;
    /// Ends the recording of this thread's session.
    pub fn vs_stop(why: *const c_char);
    /// Takes the session's lock, and reports nothing.
    pub fn vs_hold(object: *const vs_object) -> c_uint;
    /// Takes the session's lock, and reports an access.
    pub fn vs_before_at(object: *const vs_object, kind: vs_kind, place: *const vs_place) -> c_uint;
    /// Releases the session's lock.
    pub fn vs_after(token: c_uint);
    /// Reports an event.
    pub fn vs_tell_at(object: *const vs_object, kind: vs_kind, place: *const vs_place);
    /// A block begins.
    pub fn vs_begin_block(label: *const vs_object) -> vs_block;
    /// It ends, with those that began within it.
    pub fn vs_end_block(block: vs_block);
    /// Leaves out what has this name, from here on.
    pub fn vs_ignore(session: vs_session, kind: vs_named, name: *const c_char) -> bool;
    /// Before a thread is started.
    pub fn vs_fork_at(place: *const vs_place) -> vs_child;
    /// The first call of a thread.
    pub fn vs_born(child: vs_child);
    /// The last call of a thread.
    pub fn vs_exit(child: vs_child);
    /// After a thread was joined.
    pub fn vs_join_at(child: vs_child, place: *const vs_place);
    /// A task or fiber.
    pub fn vs_self_new() -> *mut vs_self;
    /// This thread acts as it.
    pub fn vs_switch(actor: *mut vs_self) -> *mut vs_self;
    /// Frees it.
    pub fn vs_self_free(actor: *mut vs_self);
}
