//! A bank whose accounts threads share. One of its deposits is atomic.
#[cfg(not(feature = "watch"))]
use std::sync::atomic::{AtomicU32, Ordering::SeqCst};
#[cfg(feature = "watch")]
use velodrome::sync::atomic::{AtomicU32, Ordering::SeqCst};

/// An account.
#[derive(Debug, Default)]
pub struct Account {
    balance: AtomicU32,
}

impl Account {
    /// The balance.
    pub fn balance(&self) -> u32 {
        self.balance.load(SeqCst)
    }

    /// A deposit by one access.
    #[cfg_attr(feature = "watch", velodrome::atomic)]
    pub fn deposit(&self, amount: u32) {
        self.balance.fetch_add(amount, SeqCst);
    }

    /// A deposit by two: another one may come between the read and the write, and is lost then.
    #[cfg_attr(feature = "watch", velodrome::atomic)]
    pub fn deposit_carelessly(&self, amount: u32) {
        let before = self.balance.load(SeqCst);
        self.balance.store(before + amount, SeqCst);
    }
}
