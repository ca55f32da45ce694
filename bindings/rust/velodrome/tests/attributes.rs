//! `#[velodrome::test]`, `#[velodrome::atomic]` and `check`.
use std::sync::atomic::{AtomicU32, Ordering::SeqCst};
use velodrome::cell::Var;
use velodrome::sync::Mutex;
use velodrome::{thread, Builder};

struct Account(Var<u32>);

impl Account {
    #[velodrome::atomic]
    fn deposit(&self, amount: u32) -> u32 {
        let before = self.0.get();
        thread::yield_now();
        self.0.set(before + amount);
        before
    }

    #[velodrome::atomic]
    fn generic<'a, T>(&'a self, value: &'a T) -> Result<impl Iterator<Item = T> + 'a, String>
    where
        T: Clone + 'a,
    {
        self.0.get();
        let mut times = u8::try_from(2_u32).map_err(|error| error.to_string())?;
        Ok(std::iter::from_fn(move || {
            times = times.checked_sub(1)?;
            Some(value.clone())
        }))
    }
}

#[velodrome::test]
fn watched() {
    let account = Account(Var::new(0));
    account.deposit(1);
    assert_eq!(account.generic(&7).unwrap().count(), 2);
}

#[velodrome::test(noise = 2)]
#[should_panic(expected = "not atomic: attributes::deposit (attributes.rs:")]
fn lost() {
    let account = Account(Var::new(0));
    thread::scope(|scope| {
        scope.spawn(|| (0..2000).for_each(|_| assert!(account.deposit(1) < 4000)));
        scope.spawn(|| (0..2000).for_each(|_| assert!(account.deposit(1) < 4000)));
    });
}

#[velodrome::test]
fn with_a_result() -> Result<(), std::num::ParseIntError> {
    let lock = Mutex::new(0);
    *lock.lock().unwrap() = "7".parse()?;
    Ok(())
}

static TIMES: AtomicU32 = AtomicU32::new(0);

const LONG: u32 = 50;

#[velodrome::test(repeat = if LONG > 9 { 5 } else { 1 }, max_events = 2 * LONG, noise = u32::from(true) * 4, seed = 7, everywhere = false)]
fn repeated() -> Result<(), String> {
    TIMES.fetch_add(1, SeqCst);
    Var::new(0).set(1);
    Ok(())
}

#[test]
fn repeats() {
    let before = TIMES.load(SeqCst);
    repeated().unwrap();
    assert!(TIMES.load(SeqCst) >= before + 5);
}

#[test]
fn check_returns_the_value() {
    assert_eq!(velodrome::check(|| Var::new(7).get()), 7);
}

#[test]
#[should_panic(expected = "mine")]
fn the_bodys_panic_goes_on() {
    Builder::new().name("mine").check(|| panic!("mine"));
}
