//! What is said of tests that pass without having been watched to their end: `cargo test` hides what a passing test prints, so it is
//! said once, when the process ends.
use std::ffi::c_int;
use std::io::Write;
use std::sync::{Mutex, Once, PoisonError};

static WORDS: Mutex<Vec<String>> = Mutex::new(Vec::new());

extern "C" {
    fn atexit(function: extern "C" fn()) -> c_int;
}

/// Has it said of this run at the end.
pub(crate) fn add(name: &str, report: &str) {
    static REGISTERED: Once = Once::new();
    REGISTERED.call_once(|| {
        // SAFETY: the function takes nothing, unwinds nowhere, and is there until the process ends. Where it is refused, as there is no
        // memory, nothing is said.
        let _ = unsafe { atexit(say) };
    });
    let mut words = WORDS.lock().unwrap_or_else(PoisonError::into_inner);
    words.push(format!("{name}: {}", report.trim_end()));
}

extern "C" fn say() {
    let words = WORDS.lock().unwrap_or_else(PoisonError::into_inner);
    let mut to = std::io::stderr().lock();
    // there is nobody to tell where it cannot be written
    let _ = writeln!(
        to,
        "velodrome: {} incomplete:\n  {}",
        words.len(),
        words.join("\n  ")
    );
}
