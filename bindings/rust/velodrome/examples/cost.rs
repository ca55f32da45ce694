//! Nanoseconds of the processor for a round of six events (a block, a lock, a read, a write), in one thread and in four: watched, with
//! no session, and with std's own types. Run it with `--release`.
use velodrome::cell::Var;
use velodrome::sync::Mutex;
use velodrome::{block, Builder, Outcome};

const ROUNDS: u32 = 200_000;

extern "C" {
    /// The processor time of this process, in microseconds on POSIX.
    fn clock() -> std::ffi::c_long;
}

/// The median of nine.
fn cost(threads: u32, round: impl Fn() + Sync) -> f64 {
    let mut times: Vec<f64> = (0..9)
        .map(|_| {
            // SAFETY: it takes nothing.
            let start = unsafe { clock() };
            std::thread::scope(|scope| {
                for _ in 0..threads {
                    scope.spawn(|| (0..ROUNDS / threads).for_each(|_| round()));
                }
            });
            // SAFETY: it takes nothing.
            (unsafe { clock() } - start) as f64 * 1e3 / f64::from(ROUNDS)
        })
        .collect();
    times.sort_by(f64::total_cmp);
    times[4]
}

fn main() {
    let (lock, x) = (Mutex::new(()), Var::new(0_u64));
    let plain = std::sync::Mutex::new(0_u64);
    let round = || {
        let _block = block!("increment");
        let _held = lock.lock().unwrap();
        x.set(x.get() + 1);
    };
    for threads in [1, 4] {
        let (watched, outcome) = Builder::new().run(|| cost(threads, round));
        assert_eq!(outcome, Outcome::Clean);
        let idle = cost(threads, round);
        let plain = cost(threads, || *plain.lock().unwrap() += 1);
        println!("{threads} threads: {watched:.0} ns a round watched, {idle:.0} with no session, {plain:.0} plain");
    }
}
