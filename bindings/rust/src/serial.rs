//! Instances of one thread.
use crate::calls;
use crate::fault::{unexpected, Fault};
use crate::sys;
use crate::words::{Done, Kind, Next, Prep};
use std::cell::Cell;
use std::marker::PhantomData;

/// An instance of one thread (`struct napi_struct`). Every caller has a number; the controller's number is an argument when the
/// instance is made. A call that isn't allowed in the state fails with [`NOT_ALLOWED`](Fault::NOT_ALLOWED) and changes nothing.
#[derive(Clone, Debug)]
pub struct SerialNapi {
    raw: sys::fq_napi,
    // not `Sync`: one call at a time
    by_one: PhantomData<Cell<()>>,
}

impl SerialNapi {
    /// Returns a new instance, which is disabled (`netif_napi_add`).
    pub fn new(controller: u32) -> SerialNapi {
        SerialNapi {
            raw: calls::napi_new(controller),
            by_one: PhantomData,
        }
    }

    /// Requests a poll (`napi_schedule_prep`).
    pub fn schedule(&mut self, who: u32) -> Prep {
        let said = calls::napi_schedule(&mut self.raw, who);
        match Prep::of("napi_schedule", said) {
            Some(prep) => prep,
            None => unexpected("napi_schedule", said),
        }
    }

    /// Queues a granted instance (`____napi_schedule`), or puts a polled one on the list again.
    pub fn hand(&mut self, who: u32, kind: Kind) -> Result<(), Fault> {
        Fault::unless_made(calls::napi_hand(&mut self.raw, who, kind.number()))
    }

    /// Takes the instance from the list or as its thread; returns false if it isn't there.
    pub fn take(&mut self, who: u32, kind: Kind) -> bool {
        let said = calls::napi_take(&mut self.raw, who, kind.number());
        said == sys::FQ_TAKEN
    }

    /// Ends a poll (`napi_complete_done`).
    pub fn complete(&mut self, who: u32) -> Result<Done, Fault> {
        match calls::napi_complete(&mut self.raw, who) {
            sys::FQ_RELEASED => Ok(Done::Released),
            sys::FQ_AGAIN => Ok(Done::Again),
            sys::FQ_HELD => Ok(Done::Held),
            sys::FQ_NOT_ALLOWED => Err(Fault::NOT_ALLOWED),
            said => unexpected("napi_complete", said),
        }
    }

    /// Ends a poll as the kernel does (`__napi_poll`). After a full poll, which used its whole weight, the instance is on the
    /// list again, or stays with its thread, unless a disable is pending. Otherwise it is completed, and queued again if a
    /// request was missed. Returns `None` if the caller keeps polling. After [`Next::Again`] of [`Kind::Thread`] wake its
    /// thread.
    pub fn end(&mut self, who: u32, full: bool) -> Result<Option<Next>, Fault> {
        let mut next = sys::FQ_NEXT_GONE;
        match calls::napi_end(&mut self.raw, who, full, &mut next) {
            sys::FQ_OK => Ok(Some(Next::of("napi_end", next))),
            sys::FQ_HELD => Ok(None),
            sys::FQ_NOT_ALLOWED => Err(Fault::NOT_ALLOWED),
            said => unexpected("napi_end", said),
        }
    }

    /// Takes an idle instance to busy poll it (`napi_busy_loop`); returns false if it isn't idle.
    pub fn busy_take(&mut self, who: u32) -> bool {
        let said = calls::napi_busy_take(&mut self.raw, who);
        said == sys::FQ_TAKEN
    }

    /// Stops busy polling (`busy_poll_stop`): one poll has to follow.
    pub fn busy_stop(&mut self, who: u32) -> Result<(), Fault> {
        Fault::unless_made(calls::napi_busy_stop(&mut self.raw, who))
    }

    /// Sets whether the instance is scheduled on its own thread (`dev_set_threaded`).
    pub fn set_threaded(&mut self, who: u32, threaded: bool) {
        calls::napi_set_threaded(&mut self.raw, who, threaded)
    }

    /// For the controller: marks a disable as pending (the first step of `napi_disable`).
    pub fn mark_disable(&mut self, who: u32) -> Result<(), Fault> {
        Fault::unless_made(calls::napi_mark_disable(&mut self.raw, who))
    }

    /// For the controller: takes a marked instance (the second step); returns false if a caller owns it.
    pub fn take_disable(&mut self, who: u32) -> Result<bool, Fault> {
        match calls::napi_take_disable(&mut self.raw, who) {
            sys::FQ_TAKEN => Ok(true),
            sys::FQ_BUSY => Ok(false),
            sys::FQ_NOT_ALLOWED => Err(Fault::NOT_ALLOWED),
            said => unexpected("napi_take_disable", said),
        }
    }

    /// For the controller: clears the mark (the third step).
    pub fn unmark(&mut self, who: u32) -> Result<(), Fault> {
        Fault::unless_made(calls::napi_unmark(&mut self.raw, who))
    }

    /// For the controller: enables the instance (`napi_enable`). Call [`schedule`](SerialNapi::schedule) once after it, because
    /// an earlier request isn't polled.
    pub fn enable(&mut self, who: u32, threaded: bool) -> Result<(), Fault> {
        Fault::unless_made(calls::napi_enable(&mut self.raw, who, threaded))
    }

    /// Returns the state word, a sum of the [`sys`] constants `FQ_BIT_..`.
    pub fn word(&self) -> u64 {
        calls::napi_word(&self.raw)
    }
}
