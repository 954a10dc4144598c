//! A caller that busy polls.
use crate::answers::TryStop;
use crate::calls;
use crate::fault::unexpected;
use crate::handle::Handle;
use crate::packets::{Answers, Batch, Counts, Packet, Weight};
use crate::polling::{self, Polling};
use crate::sys;

/// A caller that busy polls the instance. After the stop it polls once more, as [`Polling`], which serves all requests that
/// came meanwhile.
#[derive(Debug)]
#[must_use = "an instance whose poller is dropped is polled by nobody"]
pub struct Busy {
    pub(crate) at: Handle<sys::fq_caller>,
}

impl Busy {
    /// Polls once: the ring's next packets, at most the weight.
    pub fn poll<'b>(&mut self, weight: Weight, batch: &'b mut Batch) -> &'b [Packet] {
        polling::poll(&mut self.at, weight, batch)
    }

    /// Reads the state word: a sum of the `FQ_BIT_..` of [`sys`].
    pub fn look(&self) -> u64 {
        self.at.look()
    }

    /// The counts of the results of its calls, since the instance was made.
    pub fn answers(&self) -> Answers {
        self.at.answers()
    }

    /// The counts of the ring's polls.
    pub fn counts(&self) -> Counts {
        self.at.counts()
    }

    /// Completes a poll below its weight (`napi_complete_done`, which does nothing under `IN_BUSY_POLL`): the caller keeps busy
    /// polling.
    pub fn complete_held(&mut self) {
        match calls::caller_complete(self.at.raw()) {
            sys::FQ_HELD => {}
            said => unexpected("caller_complete", said),
        }
    }

    /// Tries once to stop busy polling (`busy_poll_stop`). It doesn't wait.
    pub fn try_stop(mut self) -> TryStop {
        match calls::caller_busy_stop(self.at.raw()) {
            sys::FQ_OK => TryStop::Stopped(Polling { at: self.at }),
            sys::FQ_CHANGED => TryStop::Changed(self),
            said => unexpected("caller_busy_stop", said),
        }
    }

    /// Stops busy polling, and retries until an attempt decides (`busy_poll_stop`).
    pub fn stop(self) -> Polling {
        let mut busy = self;
        loop {
            match busy.try_stop() {
                TryStop::Stopped(polling) => return polling,
                TryStop::Changed(changed) => busy = changed,
            }
        }
    }
}
