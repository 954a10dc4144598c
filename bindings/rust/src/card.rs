//! The card of an instance, as the functions that end a poll use it.

/// A card whose interrupt is masked while its instance is polled.
pub trait Card {
    /// Masks the card's interrupt.
    fn mask(&mut self);
    /// Unmasks the card's interrupt.
    fn unmask(&mut self);
}

/// A card that can be checked for packets.
pub trait Look: Card {
    /// Returns whether there is something to poll. A memory fence precedes the call.
    fn look(&mut self) -> bool;
}

/// A card that can be polled without its instance.
pub trait Poll: Card {
    /// Polls at most this many packets, and returns how many.
    fn poll(&mut self, most: usize) -> usize;
}
