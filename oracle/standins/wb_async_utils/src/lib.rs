//! Stands for the crate `wb_async_utils`: `TakeCell`. It decides nothing: only subscriptions use it, and the driver has
//! none.
use std::cell::RefCell;
use std::task::Poll;

#[derive(Debug)]
pub struct TakeCell<T>(RefCell<Option<T>>);

impl<T> TakeCell<T> {
    pub fn new() -> Self {
        TakeCell(RefCell::new(None))
    }
    pub fn is_empty(&self) -> bool {
        self.0.borrow().is_none()
    }
    pub fn set(&self, t: T) {
        *self.0.borrow_mut() = Some(t)
    }
    /// Waits until filled; `ufotofu_codec::block_on` panics rather than wait for ever.
    pub async fn take(&self) -> T {
        std::future::poll_fn(|_| match self.0.borrow_mut().take() {
            Some(t) => Poll::Ready(t),
            None => Poll::Pending,
        })
        .await
    }
}
