//! Who acts, where that is no thread: tasks and futures, of which one thread runs many.
use crate::session::Someone;
use std::fmt;
use std::future::Future;
use std::pin::Pin;
use std::task::{Context, Poll};

/// Somebody with blocks of their own: a task, a fiber, a state machine. An actor is in the run that its maker is in.
///
/// ```
/// use velodrome::{cell::Var, task::Actor};
/// let balance = Var::new(0);
/// let ((), outcome) = velodrome::Builder::new().run(|| {
///     let (mut one, mut two) = (Actor::new(), Actor::new());
///     let block = one.act(|| velodrome::block!("deposit"));
///     let before = one.act(|| balance.get());
///     two.act(|| balance.set(10)); // between the read and the write
///     one.act(|| {
///         balance.set(before + 5);
///         drop(block);
///     });
/// });
/// assert!(!outcome.is_clean());
/// ```
#[derive(Debug)]
pub struct Actor(Someone);

impl Actor {
    /// One that has done nothing yet.
    #[allow(clippy::new_without_default)] // each is another one
    pub fn new() -> Actor {
        Actor(Someone::new())
    }

    /// What the body does in this thread, it does as this actor.
    pub fn act<T>(&mut self, body: impl FnOnce() -> T) -> T {
        self.0.act(body)
    }
}

/// The future as an actor of its own: its blocks may stay open while it waits, and what its thread does meanwhile is not in them.
///
/// ```
/// use std::{future::Future, pin::pin, task::{Context, Waker}};
/// use velodrome::{cell::Var, task};
/// # async fn answer() -> u32 { 5 }
/// let balance = Var::new(0);
/// let mut deposit = pin!(task::watch(async {
///     let _block = velodrome::block!("deposit");
///     let before = balance.get();
///     balance.set(before + answer().await);
/// }));
/// # struct Nobody;
/// # impl std::task::Wake for Nobody { fn wake(self: std::sync::Arc<Self>) {} }
/// # let waker: Waker = std::sync::Arc::new(Nobody).into();
/// assert!(deposit.as_mut().poll(&mut Context::from_waker(&waker)).is_ready());
/// assert_eq!(balance.get(), 5);
/// ```
pub fn watch<F: Future>(future: F) -> Watched<F> {
    Watched {
        actor: Actor::new(),
        future: Some(Box::pin(future)),
    }
}

/// A future by [`watch`].
#[must_use = "futures do nothing unless they are awaited"]
pub struct Watched<F> {
    actor: Actor,
    future: Option<Pin<Box<F>>>, // none where it is dropped
}

impl<F: Future> Future for Watched<F> {
    type Output = F::Output;

    fn poll(mut self: Pin<&mut Self>, context: &mut Context<'_>) -> Poll<F::Output> {
        let Watched { actor, future } = &mut *self;
        match future {
            Some(future) => actor.act(|| future.as_mut().poll(context)),
            None => Poll::Pending,
        }
    }
}

/// The future goes as its actor, so its blocks end as they began.
impl<F> Drop for Watched<F> {
    fn drop(&mut self) {
        let future = self.future.take();
        self.actor.act(|| drop(future));
    }
}

impl<F> fmt::Debug for Watched<F> {
    fn fmt(&self, f: &mut fmt::Formatter<'_>) -> fmt::Result {
        f.debug_struct("Watched").finish_non_exhaustive()
    }
}
