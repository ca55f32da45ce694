//! `std::sync::mpsc`, told: each message is a variable that is written when it is sent and read when it is received.
use crate::session::{Kind, Object, Place};
use std::fmt;
use std::panic::Location;
use std::sync::mpsc as real;
use std::time::Duration;

pub use std::sync::mpsc::{RecvError, RecvTimeoutError, SendError, TryRecvError, TrySendError};

struct Message<T> {
    object: Object,
    value: T,
}

impl<T> Message<T> {
    /// Told before it is sent: no other thread has it yet.
    fn sent(value: T, channel: Place, place: Place) -> Message<T> {
        let object = Object::new("message", channel);
        object.tell(Kind::Write, place);
        Message { object, value }
    }

    /// Told after it is received: no other thread has it any more.
    fn received(self, place: Place) -> T {
        self.object.tell(Kind::Read, place);
        self.value
    }
}

/// As std's.
#[track_caller]
#[must_use]
pub fn channel<T>() -> (Sender<T>, Receiver<T>) {
    let (inner, receiver) = real::channel();
    let channel = Location::caller();
    (Sender { inner, channel }, Receiver { inner: receiver })
}

/// As std's.
#[track_caller]
#[must_use]
pub fn sync_channel<T>(bound: usize) -> (SyncSender<T>, Receiver<T>) {
    let (inner, receiver) = real::sync_channel(bound);
    let channel = Location::caller();
    (SyncSender { inner, channel }, Receiver { inner: receiver })
}

/// [`std::sync::mpsc::Sender`], told.
pub struct Sender<T> {
    inner: real::Sender<Message<T>>,
    channel: Place,
}

impl<T> Sender<T> {
    /// As std's.
    ///
    /// # Errors
    ///
    /// If there is no receiver; the error has the value.
    #[track_caller]
    pub fn send(&self, value: T) -> Result<(), SendError<T>> {
        let message = Message::sent(value, self.channel, Location::caller());
        self.inner
            .send(message)
            .map_err(|SendError(message)| SendError(message.value))
    }
}

impl<T> Clone for Sender<T> {
    fn clone(&self) -> Self {
        Sender {
            inner: self.inner.clone(),
            channel: self.channel,
        }
    }
}

impl<T> fmt::Debug for Sender<T> {
    fn fmt(&self, f: &mut fmt::Formatter<'_>) -> fmt::Result {
        f.debug_struct("Sender").finish_non_exhaustive()
    }
}

/// [`std::sync::mpsc::SyncSender`], told.
pub struct SyncSender<T> {
    inner: real::SyncSender<Message<T>>,
    channel: Place,
}

impl<T> SyncSender<T> {
    /// As std's.
    ///
    /// # Errors
    ///
    /// If there is no receiver; the error has the value.
    #[track_caller]
    pub fn send(&self, value: T) -> Result<(), SendError<T>> {
        let message = Message::sent(value, self.channel, Location::caller());
        self.inner
            .send(message)
            .map_err(|SendError(message)| SendError(message.value))
    }

    /// As std's.
    ///
    /// # Errors
    ///
    /// If there is no room or no receiver; the error has the value.
    #[track_caller]
    pub fn try_send(&self, value: T) -> Result<(), TrySendError<T>> {
        let message = Message::sent(value, self.channel, Location::caller());
        self.inner.try_send(message).map_err(|error| match error {
            TrySendError::Full(message) => TrySendError::Full(message.value),
            TrySendError::Disconnected(message) => TrySendError::Disconnected(message.value),
        })
    }
}

impl<T> Clone for SyncSender<T> {
    fn clone(&self) -> Self {
        SyncSender {
            inner: self.inner.clone(),
            channel: self.channel,
        }
    }
}

impl<T> fmt::Debug for SyncSender<T> {
    fn fmt(&self, f: &mut fmt::Formatter<'_>) -> fmt::Result {
        f.debug_struct("SyncSender").finish_non_exhaustive()
    }
}

/// [`std::sync::mpsc::Receiver`], told.
pub struct Receiver<T> {
    inner: real::Receiver<Message<T>>,
}

impl<T> Receiver<T> {
    /// As std's.
    ///
    /// # Errors
    ///
    /// If there is no message, and no sender any more.
    #[track_caller]
    pub fn recv(&self) -> Result<T, RecvError> {
        let place = Location::caller();
        self.inner.recv().map(|message| message.received(place))
    }

    /// As std's.
    ///
    /// # Errors
    ///
    /// If there is no message.
    #[track_caller]
    pub fn try_recv(&self) -> Result<T, TryRecvError> {
        let place = Location::caller();
        self.inner.try_recv().map(|message| message.received(place))
    }

    /// As std's.
    ///
    /// # Errors
    ///
    /// If no message came in time, or there is no sender any more.
    #[track_caller]
    pub fn recv_timeout(&self, timeout: Duration) -> Result<T, RecvTimeoutError> {
        let place = Location::caller();
        self.inner
            .recv_timeout(timeout)
            .map(|message| message.received(place))
    }

    /// As std's.
    #[track_caller]
    pub fn iter(&self) -> Iter<'_, T> {
        Iter {
            receiver: self,
            place: Location::caller(),
        }
    }

    /// As std's.
    #[track_caller]
    pub fn try_iter(&self) -> TryIter<'_, T> {
        TryIter {
            receiver: self,
            place: Location::caller(),
        }
    }
}

impl<T> fmt::Debug for Receiver<T> {
    fn fmt(&self, f: &mut fmt::Formatter<'_>) -> fmt::Result {
        f.debug_struct("Receiver").finish_non_exhaustive()
    }
}

/// [`std::sync::mpsc::Iter`], told.
#[derive(Debug)]
pub struct Iter<'a, T> {
    receiver: &'a Receiver<T>,
    place: Place,
}

impl<T> Iterator for Iter<'_, T> {
    type Item = T;
    fn next(&mut self) -> Option<T> {
        Some(self.receiver.inner.recv().ok()?.received(self.place))
    }
}

/// [`std::sync::mpsc::TryIter`], told.
#[derive(Debug)]
pub struct TryIter<'a, T> {
    receiver: &'a Receiver<T>,
    place: Place,
}

impl<T> Iterator for TryIter<'_, T> {
    type Item = T;
    fn next(&mut self) -> Option<T> {
        Some(self.receiver.inner.try_recv().ok()?.received(self.place))
    }
}

/// [`std::sync::mpsc::IntoIter`], told.
#[derive(Debug)]
pub struct IntoIter<T> {
    receiver: Receiver<T>,
    place: Place,
}

impl<T> Iterator for IntoIter<T> {
    type Item = T;
    fn next(&mut self) -> Option<T> {
        Some(self.receiver.inner.recv().ok()?.received(self.place))
    }
}

impl<'a, T> IntoIterator for &'a Receiver<T> {
    type Item = T;
    type IntoIter = Iter<'a, T>;
    #[track_caller]
    fn into_iter(self) -> Iter<'a, T> {
        self.iter()
    }
}

impl<T> IntoIterator for Receiver<T> {
    type Item = T;
    type IntoIter = IntoIter<T>;
    #[track_caller]
    fn into_iter(self) -> IntoIter<T> {
        IntoIter {
            receiver: self,
            place: Location::caller(),
        }
    }
}
