//! `now_or_never`, and names that `next_trigger` imports.

use std::future::Future;
use std::pin::pin;
use std::task::{Context, Poll, Waker};

pub trait FutureExt: Future {
    fn now_or_never(self) -> Option<Self::Output>
    where
        Self: Sized,
    {
        match pin!(self).poll(&mut Context::from_waker(Waker::noop())) {
            Poll::Ready(value) => Some(value),
            Poll::Pending => None,
        }
    }
}

impl<F: Future> FutureExt for F {}

pub trait StreamExt {}

pub mod stream {
    use std::marker::PhantomData;

    pub struct FuturesUnordered<F>(PhantomData<F>);

    impl<F> FuturesUnordered<F> {
        #[allow(clippy::new_without_default)]
        pub fn new() -> Self {
            Self(PhantomData)
        }
    }
}
