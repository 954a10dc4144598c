//! Pending bits.
use std::sync::atomic::{AtomicU64, Ordering};

/// A word of pending bits, which threads share: other threads raise bits, and the poller takes them.
#[derive(Debug, Default)]
pub struct Word(AtomicU64);

impl Word {
    /// Returns a word without bits.
    pub fn new() -> Word {
        Word::default()
    }

    /// Raises a bit, 0 to 63, and returns whether the word was 0: then wake the poller.
    pub fn raise(&self, bit: u32) -> bool {
        self.0.fetch_or(1 << (bit & 63), Ordering::SeqCst) == 0
    }

    /// Takes all bits: returns the word, and sets it to 0.
    pub fn take(&self) -> u64 {
        self.0.swap(0, Ordering::SeqCst)
    }

    /// Returns whether a bit is raised; the poller checks this before it sleeps.
    pub fn any(&self) -> bool {
        self.0.load(Ordering::SeqCst) != 0
    }
}
