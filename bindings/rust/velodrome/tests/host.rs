//! Nothing fails the program: no refusal panics, poisons a lock or holds one, and no code of the program runs under the session's.
use std::panic::{catch_unwind, AssertUnwindSafe};
use std::sync::atomic::{AtomicU32, Ordering::SeqCst};
use std::sync::Arc;
use velodrome::cell::Var;
use velodrome::sync::{Mutex, RwLock};
use velodrome::{block, thread, Builder, Ignored, Outcome};

fn watch(body: impl FnOnce()) -> Outcome {
    let met = Var::new(0); // a run of which nothing is recorded is incomplete
    let body = || {
        met.set(1);
        body();
    };
    Builder::new().run(body).1
}

#[track_caller]
fn incomplete(outcome: &Outcome, words: &str) {
    assert!(
        matches!(outcome, Outcome::Incomplete(reason) if reason.to_string().contains(words)),
        "{outcome:?}"
    );
}

#[test]
fn a_full_log_changes_nothing() {
    let (lock, x) = (Mutex::new(0), Var::new(0));
    let ((), outcome) = Builder::new().max_events(20).run(|| {
        let _block = block!("long");
        for n in 1..=1000 {
            let mut held = lock.lock().unwrap();
            *held += 1;
            x.set(n);
            assert_eq!(x.get(), n);
        }
    });
    incomplete(&outcome, "too many events while a block was open");
    assert_eq!(
        (*lock.lock().unwrap(), lock.is_poisoned(), x.get()),
        (1000, false, 1000)
    );
}

#[test]
fn a_refused_release_poisons_nothing() {
    let (lock, x) = (Mutex::new(0), Var::new(0));
    let ((), outcome) = Builder::new().max_events(10).run(|| {
        let _block = block!("fills");
        let _held = lock.lock().unwrap();
        (0..20).for_each(|n| x.set(n));
    });
    incomplete(&outcome, "too many events");
    assert!(!lock.is_poisoned() && lock.try_lock().is_ok());
}

#[test]
fn an_alarm_before_the_end_stays() {
    let x = Var::new(0);
    let ((), outcome) = Builder::new().max_events(64).run(|| {
        let _block = block!("lost");
        let before = x.get();
        std::thread::scope(|scope| {
            scope.spawn(|| x.set(1));
        });
        (0..200).for_each(|_| x.set(before));
    });
    assert!(matches!(outcome, Outcome::Alarm(_)), "{outcome}");
}

#[test]
fn a_long_program_ends_with_a_verdict() {
    let (lock, x) = (Mutex::new(0), Var::new(0));
    let rounds = 400_000; // of five events, at a limit of a million
    let outcome = watch(|| {
        for n in 0..rounds {
            let _block = block!("round");
            let mut held = lock.lock().unwrap();
            x.set(n);
            *held += 1;
        }
    });
    assert_eq!((outcome, *lock.lock().unwrap()), (Outcome::Clean, rounds));
}

#[test]
fn many_threads_and_variables_one_after_another() {
    let (sum, outcome) = Builder::new().run(|| {
        (0..300)
            .map(|n| {
                thread::spawn(move || (0..300).map(|_| Var::new(n).get()).sum::<u64>())
                    .join()
                    .unwrap()
            })
            .sum::<u64>()
    });
    assert_eq!((sum, outcome), (300 * 299 / 2 * 300, Outcome::Clean));
}

#[test]
fn more_threads_than_are_told() {
    let x = Var::new(0);
    let ((), outcome) = Builder::new().run(|| {
        let _block = block!("many");
        x.set(1);
        let all: Vec<_> = (0..70).map(|_| thread::spawn(|| ())).collect();
        all.into_iter().for_each(|thread| thread.join().unwrap());
    });
    incomplete(&outcome, "threads while a block was open");
}

#[test]
fn threads_of_other_libraries() {
    let (lock, x) = (Mutex::new(0), Var::new(0));
    let outcome = watch(|| {
        x.set(*lock.lock().unwrap()); // so the run knows both
        std::thread::scope(|scope| {
            for _ in 0..4 {
                scope.spawn(|| {
                    for _ in 0..100 {
                        let _block = block!("increment");
                        let _held = lock.lock().unwrap();
                        x.set(x.get() + 1);
                    }
                });
            }
        });
    });
    assert_eq!(
        (x.get(), outcome, lock.is_poisoned()),
        (400, Outcome::Clean, false)
    );
}

#[test]
fn a_thread_met_in_a_block_is_no_child_of_it() {
    let (x, y) = (Var::new(0), Var::new(0));
    let outcome = watch(|| {
        y.set(0); // so the run knows it
        let _block = block!("block");
        x.set(1);
        elsewhere(|| y.set(1));
        assert_eq!(y.get(), 1);
    });
    assert_eq!(outcome, Outcome::Clean);
}

#[test]
fn a_second_run_while_a_guard_is_open() {
    let lock = Mutex::new(0);
    let outcome = watch(|| {
        let _held = lock.lock().unwrap();
        let _block = block!("outer");
        let _ = watch(|| drop(block!("inner")));
    });
    assert_eq!(outcome, Outcome::Clean);
    assert!(!lock.is_poisoned() && lock.try_lock().is_ok());
}

#[test]
fn what_outlives_its_run() {
    let (lock, x) = (Mutex::new(0), Var::new(0));
    let mut held = None;
    let mut blocks = Vec::new();
    let ((), outcome) = Builder::new().run(|| {
        held = Some(lock.lock().unwrap());
        blocks.push(block!("left open"));
        x.set(1);
    });
    assert_eq!(outcome, Outcome::Clean);
    x.set(2);
    blocks.clear();
    drop(held);
    assert_eq!(watch(|| x.set(*lock.lock().unwrap())), Outcome::Clean);
}

#[test]
fn a_panic_is_the_programs_own() {
    let lock = Arc::new(Mutex::new(0));
    let theirs = Arc::clone(&lock);
    let outcome = watch(|| {
        let thread = thread::spawn(move || {
            let _held = theirs.lock();
            let _block = block!("panics");
            panic!("mine")
        });
        assert_eq!(thread.join().unwrap_err().downcast_ref(), Some(&"mine"));
        assert!(lock.is_poisoned());
        *lock.lock().unwrap_or_else(|poisoned| poisoned.into_inner()) += 1;
    });
    assert_eq!(outcome, Outcome::Clean);
    let payload = catch_unwind(AssertUnwindSafe(|| watch(|| panic!("mine too")))).unwrap_err();
    assert_eq!(payload.downcast_ref(), Some(&"mine too"));
}

/// 256 runs are open at a time.
#[test]
fn runs_that_panic_are_closed() {
    for _ in 0..300 {
        let run = AssertUnwindSafe(|| watch(|| std::panic::resume_unwind(Box::new(1))));
        assert!(catch_unwind(run).is_err());
    }
    assert_eq!(watch(|| Var::new(0).set(1)), Outcome::Clean);
}

struct Nosy(Arc<Var<u32>>);

impl Clone for Nosy {
    fn clone(&self) -> Nosy {
        elsewhere(|| assert!(self.0.get() < 3));
        Nosy(Arc::clone(&self.0))
    }
}

impl Drop for Nosy {
    fn drop(&mut self) {
        elsewhere(|| self.0.set(1));
    }
}

/// In another thread, which waits for ever if this one holds the session's lock.
fn elsewhere(body: impl FnOnce() + Send) {
    std::thread::scope(|scope| {
        scope.spawn(body);
    });
}

#[test]
fn clone_and_drop_of_the_program_run_without_the_session() {
    let outcome = watch(|| {
        let x = Arc::new(Var::new(0));
        x.set(0); // so the run knows it
        let y = Var::new(Nosy(Arc::clone(&x)));
        drop(y.get());
        y.set(Nosy(Arc::clone(&x)));
        y.with(|nosy| elsewhere(|| assert!(nosy.0.get() < 3)));
        y.with_mut(|nosy| elsewhere(|| nosy.0.set(2)));
    });
    assert_eq!(outcome, Outcome::Clean);
}

#[test]
fn a_lock_that_is_read_twice() {
    let lock = RwLock::new(1);
    let outcome = watch(|| {
        let first = lock.read().unwrap();
        let second = lock.try_read().unwrap();
        assert_eq!(*first + *second, 2);
        assert!(lock.try_write().is_err());
        drop(first);
        drop(second);
        *lock.write().unwrap() += 1;
    });
    assert_eq!((*lock.read().unwrap(), outcome), (2, Outcome::Clean));
}

#[test]
fn deep_blocks() {
    fn nest(x: &Var<u32>, depth: u32) {
        let _block = block!("nested");
        x.set(depth);
        if depth > 0 {
            nest(x, depth - 1);
        }
    }
    let x = Var::new(0);
    assert_eq!(watch(|| nest(&x, 100)), Outcome::Clean);
}

#[test]
fn a_run_of_which_nothing_is_recorded() {
    incomplete(&Builder::new().run(|| ()).1, "nothing was recorded");
}

#[test]
fn what_is_ignored_makes_no_alarm() {
    let (lock, x) = (Mutex::new(0), Var::named(c"x", 0));
    let body = || {
        let _block = block!("twice");
        *lock.lock().unwrap() += 1;
        elsewhere(|| *lock.lock().unwrap() += 1);
        *lock.lock().unwrap() += 1;
        x.set(1);
        elsewhere(|| x.set(2));
        x.set(3);
    };
    let of = |builder: Builder| builder.run(body).1;
    assert!(matches!(of(Builder::new()), Outcome::Alarm(_)));
    let one = Builder::new().ignore(Ignored::Lock, "Mutex (host.rs:*");
    assert!(matches!(of(one.clone()), Outcome::Alarm(_)));
    assert_eq!(of(one.ignore(Ignored::Variable, "x")), Outcome::Clean);
    let block = Builder::new().ignore(Ignored::Block, "twice*");
    assert_eq!(of(block), Outcome::Clean);
}

#[test]
fn runs_take_turns() {
    static AT_ONCE: AtomicU32 = AtomicU32::new(0);
    std::thread::scope(|scope| {
        for _ in 0..8 {
            scope.spawn(|| {
                velodrome::unwatched(|| {
                    assert_eq!(AT_ONCE.fetch_add(1, SeqCst), 0);
                    AT_ONCE.fetch_sub(1, SeqCst);
                });
            });
            scope.spawn(|| {
                let outcome = watch(|| {
                    assert_eq!(AT_ONCE.fetch_add(1, SeqCst), 0);
                    *SHARED.lock().unwrap() += 1;
                    assert_eq!(watch(|| ()), Outcome::Clean); // within it
                    thread::scope(|scope| {
                        scope.spawn(|| assert_eq!(watch(|| ()), Outcome::Clean));
                    });
                    AT_ONCE.fetch_sub(1, SeqCst);
                });
                assert_eq!(outcome, Outcome::Clean);
            });
        }
    });
}

static SHARED: Mutex<u32> = Mutex::new(0);
