//! The types are std's: constructors, results and bounds.
use std::time::Duration;
use velodrome::cell::Var;
use velodrome::sync::atomic::{
    fence, AtomicBool, AtomicI64, AtomicPtr, AtomicU64, AtomicU8, AtomicUsize,
    Ordering::{Relaxed, SeqCst},
};
use velodrome::sync::{
    mpsc, Arc, Barrier, Condvar, LazyLock, Mutex, Once, OnceLock, RwLock, TryLockError,
    WaitTimeoutResult, Weak,
};
use velodrome::thread::{self, Builder};
use velodrome::Outcome;

static GATE: (Mutex<bool>, Condvar) = (Mutex::new(false), Condvar::new());
static TABLE: RwLock<Vec<u32>> = RwLock::new(Vec::new());
static ONCE: Once = Once::new();
static HITS: AtomicUsize = AtomicUsize::new(0);
static NAMED: Var<u32> = Var::named(c"named", 3);

fn clean(body: impl FnOnce()) {
    let met = Var::new(0); // a run of which nothing is recorded is incomplete
    let body = || {
        met.set(1);
        body();
    };
    assert_eq!(velodrome::Builder::new().run(body).1, Outcome::Clean);
}

fn shared<T: Send + Sync + std::panic::RefUnwindSafe + std::fmt::Debug>() {}

#[test]
fn bounds() {
    shared::<Mutex<std::cell::Cell<u32>>>();
    shared::<RwLock<u32>>();
    shared::<Condvar>();
    shared::<Barrier>();
    shared::<Once>();
    shared::<OnceLock<u32>>();
    shared::<LazyLock<u32>>();
    shared::<AtomicPtr<u8>>();
    shared::<Var<u32>>();
    fn sent<T: Send>() {}
    sent::<mpsc::Receiver<u32>>();
    sent::<thread::JoinHandle<u32>>();
    sent::<velodrome::task::Actor>();
    sent::<velodrome::task::Watched<std::future::Ready<u32>>>();
    sent::<thread::ScopedJoinHandle<'_, u32>>();
}

#[test]
fn mutex() {
    clean(|| {
        let mut lock = Mutex::new(vec![1]);
        {
            let held = lock.lock().unwrap();
            assert!(matches!(lock.try_lock(), Err(TryLockError::WouldBlock)));
            assert!(format!("{held:?} {lock:?}").starts_with("[1] Mutex { data: "));
        }
        lock.try_lock().unwrap().push(2);
        lock.get_mut().unwrap().push(3);
        assert_eq!(lock.into_inner().unwrap(), [1, 2, 3]);
        assert_eq!(
            *Mutex::<u32>::default().lock().unwrap() + *Mutex::from(1).lock().unwrap(),
            1
        );
        let unsized_one: Box<Mutex<[u32]>> = Box::new(Mutex::new([1, 2]));
        assert_eq!(unsized_one.lock().unwrap().len(), 2);
    });
}

#[test]
fn rwlock() {
    clean(|| {
        TABLE.write().unwrap().push(1);
        assert_eq!(*TABLE.read().unwrap(), [1]);
        assert!(TABLE.try_write().is_ok());
        let (a, b) = (TABLE.try_read().unwrap(), TABLE.read().unwrap());
        assert_eq!(a.len() + b.len(), 2);
        std::thread::scope(|scope| {
            scope
                .spawn(|| assert_eq!(*TABLE.read().unwrap(), [1]))
                .join()
                .unwrap()
        });
    });
}

#[test]
fn poison_is_stds() {
    clean(|| {
        let lock = Arc::new(Mutex::new(1));
        let weak: Weak<_> = Arc::downgrade(&lock);
        let theirs = Arc::clone(&lock);
        let _ = thread::spawn(move || {
            let _held = theirs.lock().unwrap();
            panic!("poisons")
        })
        .join();
        assert!(matches!(lock.try_lock(), Err(TryLockError::Poisoned(_))));
        assert_eq!(*lock.lock().unwrap_err().into_inner(), 1);
        lock.clear_poison();
        assert!(lock.lock().is_ok() && weak.upgrade().is_some());
    });
}

#[test]
fn condvar() {
    clean(|| {
        let waits = thread::spawn(|| {
            drop(
                GATE.1
                    .wait_while(GATE.0.lock().unwrap(), |open| !*open)
                    .unwrap(),
            )
        });
        *GATE.0.lock().unwrap() = true;
        GATE.1.notify_all();
        waits.join().unwrap();
        let (held, why) = GATE
            .1
            .wait_timeout(GATE.0.lock().unwrap(), Duration::from_millis(1))
            .unwrap();
        assert!(*held && why.timed_out());
        drop(held);
        let held = GATE.0.lock().unwrap();
        let (held, why) = GATE
            .1
            .wait_timeout_while(held, Duration::from_millis(2), |open| *open)
            .unwrap();
        assert!(*held && why.timed_out());
        let (_held, why) = GATE
            .1
            .wait_timeout_while(held, Duration::from_secs(9), |open| !*open)
            .unwrap();
        assert!(!why.timed_out());
    });
}

#[test]
fn once_and_barrier() {
    clean(|| {
        let barrier = Barrier::new(4);
        let leaders: usize = thread::scope(|scope| {
            let all: Vec<_> = (0..4)
                .map(|_| {
                    scope.spawn(|| {
                        ONCE.call_once(|| HITS.store(HITS.load(SeqCst) + 1, SeqCst));
                        assert!(ONCE.is_completed());
                        usize::from(barrier.wait().is_leader())
                    })
                })
                .collect();
            all.into_iter().map(|thread| thread.join().unwrap()).sum()
        });
        assert_eq!((leaders, HITS.load(SeqCst)), (1, 1));
    });
}

#[test]
fn channels() {
    clean(|| {
        let (send, receive) = mpsc::sync_channel(1);
        assert!(send.try_send(1).is_ok());
        assert_eq!(send.try_send(2), Err(mpsc::TrySendError::Full(2)));
        assert_eq!(receive.recv_timeout(Duration::from_secs(9)), Ok(1));
        assert_eq!(receive.try_recv(), Err(mpsc::TryRecvError::Empty));
        let more = send.clone();
        let sender = thread::spawn(move || (0..20).for_each(|n| more.send(n).unwrap()));
        assert_eq!(receive.iter().take(20).sum::<i32>(), 190);
        sender.join().unwrap();
        drop(receive);
        assert_eq!(send.send(3), Err(mpsc::SendError(3)));
    });
}

#[test]
fn atomics() {
    clean(|| {
        let x = AtomicU64::from(5);
        assert_eq!(
            (
                x.fetch_max(9, SeqCst),
                x.swap(1, SeqCst),
                x.fetch_nand(0, Relaxed)
            ),
            (5, 9, 1)
        );
        assert_eq!(
            x.fetch_update(SeqCst, SeqCst, |v| Some(v / 2)),
            Ok(u64::MAX)
        );
        assert_eq!(x.fetch_update(SeqCst, SeqCst, |_| None), Err(u64::MAX / 2));
        assert_eq!(
            (
                AtomicI64::default().into_inner(),
                *AtomicU8::new(7).get_mut()
            ),
            (0, 7)
        );
        let flag = AtomicBool::new(false);
        assert!(!flag.fetch_not(SeqCst) && flag.fetch_and(true, SeqCst));
        let mut target = 1;
        let pointer = AtomicPtr::new(&mut target);
        assert_eq!(
            pointer.swap(std::ptr::null_mut(), SeqCst),
            &mut target as *mut _
        );
        assert!(AtomicPtr::<u8>::default().load(SeqCst).is_null());
        assert_eq!(format!("{x:?}"), (u64::MAX / 2).to_string());
        fence(SeqCst);
    });
}

#[test]
fn threads() {
    clean(|| {
        let handle = Builder::new()
            .name("mine".into())
            .stack_size(1 << 17)
            .spawn(|| thread::current().name().map(str::to_owned))
            .unwrap();
        assert_eq!(handle.thread().name(), Some("mine"));
        assert_eq!(handle.join().unwrap().as_deref(), Some("mine"));
        let list = [1, 2, 3];
        let (x, out) = (AtomicU64::new(0), Mutex::new(0));
        let sum = thread::scope(|scope| {
            scope.spawn(|| scope.spawn(|| x.fetch_add(list[0], SeqCst)));
            Builder::new()
                .spawn_scoped(scope, || *out.lock().unwrap() += 1)
                .unwrap();
            scope.spawn(|| list.iter().sum::<u64>()).join().unwrap()
        });
        assert_eq!((sum, x.into_inner(), out.into_inner().unwrap()), (6, 1, 1));
    });
}

/// A block that starts threads and joins them is never serial, so an alarm shows that the joins are told.
#[test]
fn the_joins_of_a_scope_are_told_also_where_it_panics() {
    for panics in [false, true] {
        let outcome = velodrome::Builder::new().run(|| {
            let _block = velodrome::block!("joins");
            let scope = std::panic::AssertUnwindSafe(|| {
                thread::scope(|scope| {
                    scope.spawn(|| assert!(!panics, "mine"));
                });
            });
            assert_eq!(std::panic::catch_unwind(scope).is_err(), panics);
        });
        assert!(
            matches!(outcome.1, Outcome::Alarm(_)),
            "{panics}: {}",
            outcome.1
        );
    }
}

#[test]
fn var() {
    clean(|| {
        assert_eq!(NAMED.replace(4), 3);
        NAMED.with_mut(|value| *value += 1);
        assert_eq!(NAMED.with(|value| *value), 5);
        let mut list = Var::from(vec![1]);
        list.get_mut().push(2);
        assert_eq!(
            (format!("{list:?}"), list.take(), list.into_inner()),
            ("Var([1, 2])".into(), vec![1, 2], vec![])
        );
        let unsized_one: &Var<[u32]> = &Var::new([1, 2]);
        assert_eq!(unsized_one.with(<[u32]>::len), 2);
    });
}

#[test]
fn a_wait_has_stds_result() {
    clean(|| {
        let (lock, changed) = (Mutex::new(0), Condvar::new());
        let held = lock.lock().unwrap();
        let looked = |held, limit, again: bool| {
            let (held, why): (_, std::sync::WaitTimeoutResult) = changed
                .wait_timeout_while(held, Duration::from_millis(limit), |times| {
                    *times += 1;
                    again
                })
                .unwrap();
            (held, WaitTimeoutResult::timed_out(&why))
        };
        let (held, late) = looked(held, 1000, false);
        assert_eq!((*held, late), (1, false));
        let (held, late) = looked(held, 0, true);
        assert_eq!((*held > 1, late), (true, true));
        let (_held, late) = looked(held, 2, true);
        assert!(late && lock.try_lock().is_err());
    });
}

#[test]
fn once_lock() {
    static NAME: OnceLock<String> = OnceLock::new();
    clean(|| {
        assert_eq!(NAME.get(), None);
        thread::scope(|scope| {
            for _ in 0..4 {
                scope.spawn(|| assert_eq!(NAME.get_or_init(|| "bank".into()), "bank"));
            }
        });
        assert_eq!(NAME.get().map(String::as_str), Some("bank"));
        assert_eq!(NAME.set("other".into()), Err("other".into()));
        let mut own = OnceLock::new();
        assert_eq!(
            (own.set(1), own.set(2), own.get()),
            (Ok(()), Err(2), Some(&1))
        );
        assert!(own.clone() == OnceLock::from(1) && own.get_mut() == Some(&mut 1));
        assert_eq!(
            format!("{own:?} {:?}", std::sync::OnceLock::from(1)),
            "OnceLock(1) OnceLock(1)"
        );
        assert_eq!(
            (own.take(), own.get().copied(), own.into_inner()),
            (Some(1), None, None)
        );
    });
}

#[test]
fn once_lock_orders_who_makes_before_who_finds() {
    let (made, x) = (OnceLock::new(), Var::new(0));
    clean(|| {
        thread::scope(|scope| {
            for _ in 0..4 {
                scope.spawn(|| {
                    let _block = velodrome::block!("uses");
                    made.get_or_init(|| x.set(7));
                    assert_eq!((made.get(), x.get()), (Some(&()), 7));
                });
            }
        });
    });
}

#[test]
fn lazy_lock() {
    static TABLE: LazyLock<Vec<u32>> = LazyLock::new(|| vec![1, 2]);
    clean(|| {
        assert_eq!(
            (TABLE.len(), LazyLock::force(&TABLE).first()),
            (2, Some(&1))
        );
        let lazy = LazyLock::new(|| 7);
        assert_eq!(format!("{lazy:?}"), "LazyLock(<uninit>)");
        assert_eq!((*lazy, format!("{lazy:?}")), (7, "LazyLock(7)".into()));
        let fails: LazyLock<u32> = LazyLock::new(|| panic!("mine"));
        for words in ["mine", "LazyLock instance has previously been poisoned"] {
            let payload = std::panic::catch_unwind(|| *fails).unwrap_err();
            assert_eq!(payload.downcast_ref(), Some(&words));
        }
    });
}

#[test]
fn updates_and_pointers_of_atomics() {
    clean(|| {
        let x = AtomicU8::new(1);
        assert_eq!(x.update(SeqCst, SeqCst, |n| n + 1), 1);
        assert_eq!(x.try_update(SeqCst, SeqCst, |n| n.checked_sub(3)), Err(2));
        // SAFETY: no other thread has it.
        unsafe { *x.as_ptr() += 1 };
        assert_eq!(x.load(SeqCst), 3);
    });
}
