//! Byte queue limits.
use crate::calls;
use crate::fault::Fault;
use crate::sys;
use std::cell::Cell;
use std::marker::PhantomData;

/// A byte queue limit (`lib/dynamic_queue_limits.c`). Times are milliseconds of the user's clock.
///
/// ```
/// use fintaqush::{Dql, Fault};
///
/// # fn main() -> Result<(), Fault> {
/// let mut limit = Dql::new(0, 1879048192, 1000, 0)?;
/// limit.queued(1500)?;
/// assert_eq!((limit.in_flight(), limit.avail()), (1500, -1500));
/// // the card ran out of work below the limit, so this grows
/// limit.completed(1500, 6)?;
/// assert_eq!(limit.limit(), 1500);
/// # Ok(())
/// # }
/// ```
///
/// It is used by one thread at a time:
///
/// ```compile_fail,E0277
/// fn is_used_by_two<T: Sync>(_: &T) {}
/// fn limit(limit: &fintaqush::Dql) {
///     is_used_by_two(limit);
/// }
/// ```
#[derive(Debug)]
pub struct Dql {
    raw: sys::fq_dql,
    // not `Sync`: one call at a time
    by_one: PhantomData<Cell<()>>,
}

impl Dql {
    /// Returns a new limit between `min` and `max`, with the hold time `hold_ms` (`dql_init`). Fails with
    /// [`BAD_BOUNDS`](Fault::BAD_BOUNDS).
    pub fn new(min: u32, max: u32, hold_ms: u64, now_ms: u64) -> Result<Dql, Fault> {
        let mut raw = sys::fq_dql::default();
        Fault::unless_made(calls::dql_init(&mut raw, min, max, hold_ms, now_ms))?;
        Ok(Dql {
            raw,
            by_one: PhantomData,
        })
    }

    /// Adds an object of `count` bytes that was sent to the device (`dql_queued`). Fails with [`TOO_LARGE`](Fault::TOO_LARGE)
    /// or [`TOO_MUCH_IN_FLIGHT`](Fault::TOO_MUCH_IN_FLIGHT).
    pub fn queued(&mut self, count: u32) -> Result<(), Fault> {
        Fault::unless_made(calls::dql_queued(&mut self.raw, count))
    }

    /// Completes `count` bytes, and adapts the limit (`dql_completed`). Fails with
    /// [`MORE_THAN_QUEUED`](Fault::MORE_THAN_QUEUED).
    pub fn completed(&mut self, count: u32, now_ms: u64) -> Result<(), Fault> {
        Fault::unless_made(calls::dql_completed(&mut self.raw, count, now_ms))
    }

    /// Resets the limit: nothing is in flight (`dql_reset`).
    pub fn reset(&mut self, now_ms: u64) {
        calls::dql_reset(&mut self.raw, now_ms)
    }

    /// The limit in bytes.
    pub fn limit(&self) -> u32 {
        calls::dql_limit(&self.raw)
    }

    /// The bytes that may still be sent to the device (`dql_avail`); if negative, the queue has to be stopped.
    pub fn avail(&self) -> i64 {
        calls::dql_avail(&self.raw)
    }

    /// The bytes in flight.
    pub fn in_flight(&self) -> u32 {
        calls::dql_in_flight(&self.raw)
    }
}
