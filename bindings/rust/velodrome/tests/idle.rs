//! What no run watches: alone in its process, as a run beside it would watch it.
use velodrome::cell::Var;
use velodrome::sync::Mutex;
use velodrome::{block, thread};

#[test]
fn without_a_run_all_is_std() {
    let (lock, x) = (Mutex::new(0), Var::new(0));
    let _block = block!("nobody looks");
    *lock.lock().unwrap() += 1;
    x.set(1);
    assert_eq!(
        (
            thread::spawn(|| 7).join().unwrap(),
            x.get(),
            *lock.lock().unwrap()
        ),
        (7, 1, 1)
    );
}
