//! The verdict is that of the run, whatever the objects are called and whoever the threads are.
use std::cell::RefCell;
use std::future::Future;
use std::pin::{pin, Pin};
use std::sync::mpsc::{self, Sender};
use std::sync::Arc;
use std::task::{Context, Poll, Wake};
use velodrome::cell::Var;
use velodrome::sync::atomic::{AtomicU64, Ordering::SeqCst};
use velodrome::sync::{Barrier, Condvar, Mutex, RwLock};
use velodrome::{block, task, thread, Builder, Outcome};

fn watch(body: impl FnOnce()) -> Outcome {
    Builder::new().run(body).1
}

fn report(outcome: &Outcome) -> &str {
    match outcome {
        Outcome::Alarm(alarm) => alarm.report(),
        other => panic!("{other:?}"),
    }
}

/// Done by a thread that the session has not met.
fn stranger(body: impl FnOnce() + Send) {
    std::thread::scope(|scope| {
        scope.spawn(body);
    });
}

#[test]
fn a_lost_update() {
    let (account, other) = (Var::named(c"account", 100), Var::named(c"other", 0));
    for (theirs, lost) in [(&account, true), (&other, false)] {
        let outcome = watch(|| {
            let _transfer = block!("transfer");
            let before = account.get();
            stranger(|| {
                let _deposit = block!("deposit");
                theirs.set(theirs.get() + 10);
            });
            account.set(before + 5);
        });
        if lost {
            assert!(
                report(&outcome).contains("not atomic: transfer (verdict.rs:"),
                "{outcome}"
            );
        } else {
            assert_eq!(outcome, Outcome::Clean);
        }
    }
}

#[test]
fn the_report_has_names_and_places() {
    let balance = Var::named(c"balance", 100);
    let mut read = 0;
    let outcome = watch(|| {
        let _transfer = block!("transfer");
        read = line!() + 1;
        let before = balance.get();
        stranger(|| balance.set(1));
        balance.set(before + 5);
    });
    let report = report(&outcome);
    for (event, line) in [("reads", read), ("writes", read + 1), ("writes", read + 2)] {
        let words = format!("{event} balance at verdict.rs:{line}");
        assert!(report.contains(&words), "{words}: {report}");
    }
}

#[test]
fn a_join_in_a_block_is_none_of_it() {
    let outcome = watch(|| {
        let _block = block!("joins");
        thread::spawn(|| ()).join().unwrap();
    });
    assert!(report(&outcome).contains("not atomic: joins"));
}

#[test]
fn a_block_that_waits_for_another_thread_is_none() {
    let barrier = Barrier::new(2);
    let wait = || {
        let _block = block!("waits");
        barrier.wait();
    };
    let outcome = watch(|| {
        thread::scope(|scope| {
            scope.spawn(wait);
            wait();
        });
    });
    assert!(report(&outcome).contains("not atomic: waits"));
    let (open, wait) = (Mutex::new(false), Condvar::new());
    let outcome = watch(|| {
        thread::scope(|scope| {
            let _block = block!("waits");
            let mut held = open.lock().unwrap();
            scope.spawn(|| {
                *open.lock().unwrap() = true;
                wait.notify_one();
            });
            while !*held {
                held = wait.wait(held).unwrap();
            }
        });
    });
    assert!(report(&outcome).contains("not atomic: waits"));
}

struct Account {
    lock: Mutex<()>,
    balance: Var<u32>,
}

impl Account {
    fn new() -> Account {
        Account {
            lock: Mutex::new(()),
            balance: Var::named(c"balance", 0),
        }
    }
}

#[test]
fn two_objects_of_a_name_are_two() {
    let (a, b) = (Account::new(), Account::new());
    let outcome = watch(|| {
        b.balance.set(0); // so the run knows it
        let _block = block!("move");
        let _both = (a.lock.lock().unwrap(), b.lock.lock().unwrap());
        let before = a.balance.get();
        stranger(|| b.balance.set(5));
        a.balance.set(before);
    });
    assert_eq!(outcome, Outcome::Clean);
}

#[test]
fn who_opened_an_earlier_session_is_another_thread() {
    let x = Var::new(0);
    for _ in 0..20 {
        std::thread::scope(|scope| {
            let (send, next) = mpsc::channel();
            let (done, wait) = mpsc::channel();
            let x = &x;
            scope.spawn(move || {
                let _ = watch(|| x.set(1));
                done.send(()).unwrap();
                next.recv().unwrap();
                x.set(5);
                done.send(()).unwrap();
            });
            wait.recv().unwrap();
            let outcome = watch(|| {
                let _block = block!("increment");
                let before = x.get();
                send.send(()).unwrap();
                wait.recv().unwrap();
                x.set(before + 1);
            });
            assert!(report(&outcome).contains("not atomic: increment"));
        });
    }
}

#[test]
fn two_runs_of_one_thread() {
    let (x, m) = (Var::new(0), Mutex::new(0));
    let outcome = watch(|| {
        x.set(1);
        let held = m.lock().unwrap();
        assert_eq!(watch(|| assert_eq!(Var::new(1).get(), 1)), Outcome::Clean);
        x.set(2);
        drop(held);
        let y = Var::new(0); // which the run has not met
        let _block = block!("outer");
        let before = y.get();
        stranger(|| y.set(1));
        y.set(before);
    });
    assert!(report(&outcome).contains("not atomic: outer"));
    assert!(m.try_lock().is_ok());
}

#[test]
fn runs_beside_one_another() {
    std::thread::scope(|scope| {
        for _ in 0..8 {
            scope.spawn(|| {
                let x = AtomicU64::new(0);
                let outcome = watch(|| {
                    thread::scope(|scope| {
                        for _ in 0..3 {
                            scope.spawn(|| {
                                (0..100).for_each(|_| assert!(x.fetch_add(1, SeqCst) < 300))
                            });
                        }
                    });
                });
                assert_eq!((x.into_inner(), outcome), (300, Outcome::Clean));
            });
        }
    });
}

/// Whether a stranger's access between two of a block is an alarm.
fn collide(mine: impl Fn(), theirs: impl Fn() + Sync) -> bool {
    let outcome = watch(|| {
        let _block = block!("twice");
        mine();
        stranger(&theirs);
        mine();
    });
    assert!(!matches!(outcome, Outcome::Incomplete(_)), "{outcome}");
    !outcome.is_clean()
}

#[test]
fn reads_commute_and_writes_do_not() {
    let x = Var::new(1);
    let read = || assert_eq!(x.get(), 1);
    let write = || x.set(1);
    assert_eq!(
        (
            collide(read, read),
            collide(read, write),
            collide(write, write)
        ),
        (false, true, true)
    );
    let x = AtomicU64::new(1);
    let read = || assert_eq!(x.load(SeqCst), 1);
    let write = || x.store(1, SeqCst);
    let both = || assert_eq!(x.fetch_max(1, SeqCst), 1);
    assert_eq!(
        (
            collide(read, read),
            collide(read, write),
            collide(write, read),
            collide(both, both)
        ),
        (false, true, true, true)
    );
    let x = RwLock::new(1);
    let read = || assert_eq!(*x.read().unwrap(), 1);
    let write = || *x.write().unwrap() = 1;
    assert_eq!(
        (
            collide(read, read),
            collide(read, write),
            collide(write, write)
        ),
        (false, true, true)
    );
}

/// A compare-exchange that fails only reads.
#[test]
fn a_failed_exchange_is_a_read() {
    let x = AtomicU64::new(1);
    let exchange = |expected| {
        watch(|| {
            let _block = block!("reads twice");
            x.load(SeqCst);
            stranger(|| {
                assert_eq!(
                    x.compare_exchange(expected, 1, SeqCst, SeqCst).is_ok(),
                    expected == 1
                )
            });
            x.load(SeqCst);
        })
    };
    assert_eq!(exchange(7), Outcome::Clean);
    assert!(report(&exchange(1)).contains("not atomic: reads twice"));
}

#[test]
fn an_update_by_exchange_is_atomic() {
    let x = AtomicU64::new(0);
    let add = || {
        for _ in 0..200 {
            let _block = block!("update");
            let mut old = x.load(SeqCst);
            while let Err(now) = x.compare_exchange(old, old + 1, SeqCst, SeqCst) {
                old = now;
            }
        }
    };
    let outcome = Builder::new().noise(8).seed(1).run(|| {
        thread::scope(|scope| {
            scope.spawn(add);
            scope.spawn(add);
        });
    });
    assert_eq!(x.load(SeqCst), 400);
    drop(outcome); // either: a load that another thread's exchange follows is a read of its own
}

#[test]
fn a_message_goes_from_its_sender_to_its_receiver() {
    use velodrome::sync::mpsc::channel;
    let outcome = watch(|| {
        let (ask, asked) = channel();
        let (answer, answered) = channel();
        let other = thread::spawn(move || {
            asked
                .into_iter()
                .for_each(|n: u32| answer.send(n + 1).unwrap())
        });
        for n in 0..50 {
            ask.send(n).unwrap();
            assert_eq!(answered.recv(), Ok(n + 1));
        }
        drop(ask);
        other.join().unwrap();
    });
    assert_eq!(outcome, Outcome::Clean);
    let outcome = watch(|| {
        let (ask, asked) = channel();
        let (answer, answered) = channel();
        thread::spawn(move || answer.send(asked.recv().unwrap()));
        let _block = block!("asks and waits");
        ask.send(1).unwrap();
        answered.recv().unwrap();
    });
    assert!(report(&outcome).contains("not atomic: asks and waits"));
}

/// `mem::forget` is safe: a block that is forgotten is open for as long as its run, and in no later one.
#[test]
fn a_forgotten_block_ends_with_its_run() {
    let x = Var::new(0);
    let first = watch(|| {
        let block = block!("forgotten");
        x.set(1);
        std::mem::forget(block);
    });
    assert_eq!(first, Outcome::Clean);
    let second = watch(|| {
        let before = x.get();
        stranger(|| x.set(5));
        x.set(before + 1);
    });
    assert_eq!(second, Outcome::Clean);
    let within = watch(|| {
        let outer = block!("outer");
        std::mem::forget(block!("forgotten"));
        x.set(1);
        drop(outer);
        let before = x.get();
        stranger(|| x.set(5));
        x.set(before + 1);
    });
    assert_eq!(within, Outcome::Clean);
}

struct Turn(bool);

impl Future for Turn {
    type Output = ();
    fn poll(mut self: Pin<&mut Self>, _: &mut Context<'_>) -> Poll<()> {
        if std::mem::replace(&mut self.0, true) {
            Poll::Ready(())
        } else {
            Poll::Pending
        }
    }
}

async fn deposit(x: &Var<u32>, amount: u32) {
    let _block = block!("deposit");
    let before = x.get();
    Turn(false).await;
    x.set(before + amount);
}

struct Nobody;

impl Wake for Nobody {
    fn wake(self: Arc<Self>) {}
}

/// Polls both in turns, until each is ready.
fn join(one: impl Future, two: impl Future) {
    let waker = Arc::new(Nobody).into();
    let mut context = Context::from_waker(&waker);
    let (mut one, mut two) = (pin!(one), pin!(two));
    assert!(one.as_mut().poll(&mut context).is_pending());
    assert!(two.as_mut().poll(&mut context).is_pending());
    assert!(one.as_mut().poll(&mut context).is_ready());
    assert!(two.as_mut().poll(&mut context).is_ready());
}

#[test]
fn futures_of_one_thread() {
    let x = Var::new(0);
    let outcome = watch(|| join(deposit(&x, 5), deposit(&x, 5)));
    assert_eq!(x.get(), 5);
    assert!(matches!(outcome, Outcome::Incomplete(_)), "{outcome}");
    let outcome = watch(|| join(task::watch(deposit(&x, 5)), task::watch(deposit(&x, 5))));
    assert!(report(&outcome).contains("not atomic: deposit"));
    let y = Var::new(0);
    let outcome = watch(|| join(task::watch(deposit(&x, 5)), task::watch(deposit(&y, 5))));
    assert_eq!(outcome, Outcome::Clean);
}

/// Its blocks end with it.
#[test]
fn a_future_that_is_dropped_while_it_waits() {
    let (x, y) = (Var::new(0), Var::new(0));
    let outcome = watch(|| {
        let waker = Arc::new(Nobody).into();
        let mut waits = Box::pin(task::watch(deposit(&y, 5)));
        assert!(waits
            .as_mut()
            .poll(&mut Context::from_waker(&waker))
            .is_pending());
        let _block = block!("update");
        let before = x.get();
        drop(waits);
        stranger(|| x.set(5));
        x.set(before + 1);
    });
    assert!(report(&outcome).contains("not atomic: update"));
}

struct OnExit(Sender<()>);

static LATE: Mutex<u32> = Mutex::new(0);

impl Drop for OnExit {
    fn drop(&mut self) {
        std::thread::sleep(std::time::Duration::from_millis(20));
        *LATE.lock().unwrap() += 1;
        self.0.send(()).unwrap();
    }
}

thread_local! {
    static KEPT: RefCell<Option<OnExit>> = const { RefCell::new(None) };
}

/// A scope waits for the closures of its threads, and not for the destructors of their thread-local values.
#[test]
fn thread_local_values_that_go_after_their_scope() {
    let outcome = watch(|| {
        *LATE.lock().unwrap() += 1;
        let (send, gone) = mpsc::channel();
        thread::scope(|scope| {
            scope.spawn(|| {
                KEPT.set(Some(OnExit(send)));
                *LATE.lock().unwrap() += 1;
            });
        });
        gone.recv().unwrap();
        *LATE.lock().unwrap() += 1;
    });
    assert_eq!(outcome, Outcome::Clean);
}
