//! `cargo test --features watch`: `careless` fails, as soon as a schedule comes about that loses a deposit; the others pass.
//!
//! `VELODROME_NOISE=4` makes such schedules more frequent; `repeat` runs a test until one came.
#![cfg(feature = "watch")]
use bank::Account;
use velodrome::thread;

fn two_threads(first: impl FnOnce() + Send, second: impl FnOnce() + Send) {
    thread::scope(|scope| {
        scope.spawn(first);
        scope.spawn(second);
    });
}

#[velodrome::test(repeat = 100)]
fn careful() {
    let account = Account::default();
    two_threads(|| account.deposit(5), || account.deposit(10));
    assert_eq!(account.balance(), 15);
}

#[velodrome::test(repeat = 100)]
fn careful_with_accounts_of_their_own() {
    let (mine, yours) = (Account::default(), Account::default());
    two_threads(
        || mine.deposit_carelessly(5),
        || yours.deposit_carelessly(10),
    );
}

#[velodrome::test(repeat = 1000)]
fn careless() {
    let account = Account::default();
    two_threads(
        || account.deposit_carelessly(5),
        || account.deposit_carelessly(10),
    );
}
