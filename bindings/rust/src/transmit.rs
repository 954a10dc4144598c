//! Transmit rings under a byte queue limit.
use crate::calls;
use crate::fault::{set_by, Fault};
use crate::handle::Handle;
use crate::sys;

/// The state of a transmit ring: bytes queued and completed (modulo 2^32), the limit, the bytes that may still be sent, and
/// whether the queue is stopped.
pub use crate::sys::fq_tx_shown as TxState;
/// What a timer keeps for a transmit ring that it watches; `TxWatchdog::default()` at first.
pub use crate::sys::fq_tx_watchdog as TxWatchdog;

/// A transmit ring (`netdev_tx_sent_queue`, `netdev_tx_completed_queue`): the sizes of the packets that were sent and aren't
/// complete, in order, under a byte queue limit that stops the queue and starts it again. Times are milliseconds of the user's
/// clock.
///
/// ```
/// use fintaqush::{Fault, TxRing};
///
/// # fn main() -> Result<(), Fault> {
/// let mut ring = TxRing::new(256, 0, 1879048192, 1000, 0)?;
/// // nothing may be in flight at first, so one packet stops the queue
/// ring.send(1500)?;
/// assert_eq!(ring.send(60), Err(Fault::STOPPED));
/// // the card is done with it, having run out of work: the limit grows, and the queue starts
/// ring.done(1, 6)?;
/// let state = ring.state();
/// assert_eq!((state.limit, state.avail, state.stopped), (1500, 1500, false));
/// # Ok(())
/// # }
/// ```
#[derive(Debug)]
pub struct TxRing {
    at: Handle<sys::fq_tx>,
}

impl TxRing {
    /// Returns a ring for 1 to 65536 packets, not stopped, with a new limit between `min` and `max`, and the hold time
    /// `hold_ms` (`dql_init`). Fails with [`BAD_CAPACITY`](Fault::BAD_CAPACITY), [`BAD_BOUNDS`](Fault::BAD_BOUNDS) or
    /// [`OUT_OF_MEMORY`](Fault::OUT_OF_MEMORY).
    pub fn new(
        capacity: usize,
        min: u32,
        max: u32,
        hold_ms: u64,
        now_ms: u64,
    ) -> Result<TxRing, Fault> {
        let mut at = Handle::NONE;
        let said = calls::tx_new(at.raw(), capacity, min, max, hold_ms, now_ms);
        Fault::unless_made(said)?;
        Ok(TxRing { at })
    }

    /// Sends a packet of `bytes` bytes, and stops the queue if the bytes available become negative. Fails, in this order, with
    /// [`STOPPED`](Fault::STOPPED), [`FULL`](Fault::FULL), [`TOO_LARGE`](Fault::TOO_LARGE) or
    /// [`TOO_MUCH_IN_FLIGHT`](Fault::TOO_MUCH_IN_FLIGHT); nothing is sent then.
    pub fn send(&mut self, bytes: u32) -> Result<(), Fault> {
        Fault::unless_made(calls::tx_send(self.at.raw(), bytes))
    }

    /// Completes the `count` oldest packets: the limit adapts, and the queue is started if the limit has room again. Fails with
    /// [`MORE_THAN_SENT`](Fault::MORE_THAN_SENT), and then completes nothing.
    pub fn done(&mut self, count: u32, now_ms: u64) -> Result<(), Fault> {
        Fault::unless_made(calls::tx_done(self.at.raw(), count, now_ms))
    }

    /// Returns whether it has been stopped, with no byte completed, for `limit_ms` since the first call that found it stopped
    /// (`dev_watchdog`): call it in each tick of a timer.
    pub fn watch(&self, watchdog: &mut TxWatchdog, limit_ms: u64, now_ms: u64) -> bool {
        set_by("tx_watch", false, |stuck| {
            calls::tx_watch(&self.at.0, watchdog, limit_ms, now_ms, stuck)
        })
    }

    /// Returns the state of the ring.
    pub fn state(&self) -> TxState {
        set_by("tx_state", TxState::INIT, |state| {
            calls::tx_state_sized(&self.at.0, state)
        })
    }
}
