//! Whose turn it is: one run at a time watches all threads, so that each event is of one run.
use std::cell::Cell;
use std::sync::{Condvar, Mutex, PoisonError};
use std::time::Duration;

/// How long a run waits for its turn. The run before may itself wait for it, where it began in a thread that std started within it.
const LONGEST_WAIT: Duration = Duration::from_secs(60);

static TAKEN: Mutex<bool> = Mutex::new(false);
static GIVEN_BACK: Condvar = Condvar::new();

thread_local! {
    /// Whether this thread is in a run, its own or that of who started it.
    static WITHIN: Cell<bool> = const { Cell::new(false) };
}

pub(crate) fn is_within() -> bool {
    WITHIN.get()
}

/// This thread is in the run of who started it.
pub(crate) fn enter(within: bool) {
    WITHIN.set(within);
}

/// A run of this thread, until it is dropped.
#[derive(Debug)]
pub(crate) struct Turn {
    outer: bool,
    taken: bool,
    mine: bool,
}

impl Turn {
    /// Waits for its turn, where it watches all threads.
    pub(crate) fn take(everywhere: bool) -> Turn {
        let outer = WITHIN.replace(true);
        let taken = everywhere && !outer && wait();
        Turn {
            outer,
            taken,
            mine: taken || outer,
        }
    }

    /// Whether it may watch all threads.
    pub(crate) fn is_mine(&self) -> bool {
        self.mine
    }
}

fn wait() -> bool {
    let taken = TAKEN.lock().unwrap_or_else(PoisonError::into_inner);
    let (mut taken, waited) = GIVEN_BACK
        .wait_timeout_while(taken, LONGEST_WAIT, |taken| *taken)
        .unwrap_or_else(PoisonError::into_inner);
    if waited.timed_out() {
        return false;
    }
    *taken = true;
    true
}

impl Drop for Turn {
    fn drop(&mut self) {
        WITHIN.set(self.outer);
        if self.taken {
            *TAKEN.lock().unwrap_or_else(PoisonError::into_inner) = false;
            GIVEN_BACK.notify_one();
        }
    }
}
