//! A poller, which has the poll context.
use crate::answers::{Completed, End, TryDone};
use crate::caller::{Caller, Granted};
use crate::calls;
use crate::card::{Look, Poll};
use crate::fault::{made, unexpected};
use crate::handle::Handle;
use crate::packets::{Answers, Batch, Counts, Packet, Weight};
use crate::sys;
use crate::words::Next;
use std::sync::atomic::{fence, Ordering};

/// A caller that polls the instance. After a poll of the whole weight it requeues the instance, after any other poll it
/// completes it.
///
/// After it has completed, it can't poll any more:
///
/// ```compile_fail,E0382
/// use fintaqush::{Batch, Completed, Polling, Weight};
/// fn poll_after_complete(mut polling: Polling, batch: &mut Batch) -> Completed {
///     let done = polling.complete();
///     polling.poll(Weight::MAX, batch);
///     done
/// }
/// ```
#[derive(Debug)]
#[must_use = "an instance whose poller is dropped is polled by nobody"]
pub struct Polling {
    pub(crate) at: Handle<sys::fq_caller>,
}

impl Polling {
    /// Polls once: takes the ring's next packets, at most the weight.
    pub fn poll<'b>(&mut self, weight: Weight, batch: &'b mut Batch) -> &'b [Packet] {
        poll(&mut self.at, weight, batch)
    }

    /// Reads the state word: a sum of the `FQ_BIT_..` of [`sys`].
    pub fn look(&self) -> u64 {
        self.at.look()
    }

    /// The counts of the results of its calls, since the instance was made.
    pub fn answers(&self) -> Answers {
        self.at.answers()
    }

    /// The counts of the ring's polls.
    pub fn counts(&self) -> Counts {
        self.at.counts()
    }

    /// Queues the instance at the end of the list again (`net_rx_action`, after a poll of the whole weight).
    pub fn requeue(mut self) -> Caller {
        made("caller_requeue", calls::caller_requeue(self.at.raw()));
        Caller { at: self.at }
    }

    /// Ends the poll as the kernel does (`__napi_poll`). After a full poll, which used its whole weight, the instance is
    /// requeued, or stays with its thread, unless a disable is pending. Otherwise it is completed, and queued again if a
    /// request was missed. After [`Next::Again`] of [`Kind::Thread`](crate::Kind::Thread) wake its thread, also after a
    /// poll from the list.
    pub fn end(mut self, full: bool) -> End {
        let mut next = 0;
        match calls::caller_end(self.at.raw(), full, &mut next) {
            sys::FQ_OK => End::Over(Caller { at: self.at }, Next::of("caller_end", next)),
            sys::FQ_HELD => End::Held(self),
            said => unexpected("caller_end", said),
        }
    }

    /// Ends the poll of a card that can be checked for packets. Like [`end`](Polling::end); and if that releases the instance,
    /// it unmasks the card and looks, and if there are packets it requests a poll itself, masks the card and queues the
    /// instance. Without this look an edge-triggered interrupt could be lost. The instance may be queued for its thread: wake
    /// it then, as after [`end`](Polling::end).
    pub fn end_watched(self, full: bool, card: &mut impl Look) -> End {
        let mut caller = match self.end(full) {
            End::Over(caller, Next::Gone) => caller,
            other => return other,
        };
        card.unmask();
        fence(Ordering::SeqCst);
        if !card.look() {
            return End::Over(caller, Next::Gone);
        }
        let (_, next) = caller.request_masked(card);
        End::Over(caller, next)
    }

    /// Ends the poll of a card that can't be checked, after `work` packets. If that is below the weight, it unmasks the card
    /// while it still polls, polls the rest of the weight, adds that to `work`, and ends like [`end`](Polling::end). The card
    /// is masked if one more poll follows.
    pub fn end_unmasked(self, card: &mut impl Poll, weight: Weight, work: &mut usize) -> End {
        if *work < weight.get() {
            card.unmask();
            *work += card.poll(weight.get() - *work);
            if *work >= weight.get() {
                card.mask();
            }
        }
        if *work >= weight.get() {
            return self.end(true);
        }
        match self.complete() {
            Completed::Released(caller) => End::Over(caller, Next::Gone),
            Completed::Again(granted) => {
                card.mask();
                let (caller, next) = granted.hand_again();
                End::Over(caller, next)
            }
        }
    }

    /// Tries once to end the poll (`napi_complete_done`). It doesn't wait.
    pub fn try_complete(mut self) -> TryDone {
        match calls::caller_complete(self.at.raw()) {
            sys::FQ_RELEASED => TryDone::Released(Caller { at: self.at }),
            sys::FQ_AGAIN => TryDone::Again(Granted { at: self.at }),
            sys::FQ_CHANGED => TryDone::Changed(self),
            said => unexpected("caller_complete", said),
        }
    }

    /// Ends the poll, and retries until an attempt decides (`napi_complete_done`).
    pub fn complete(mut self) -> Completed {
        match calls::caller_complete_done(self.at.raw()) {
            sys::FQ_RELEASED => Completed::Released(Caller { at: self.at }),
            sys::FQ_AGAIN => Completed::Again(Granted { at: self.at }),
            said => unexpected("caller_complete_done", said),
        }
    }
}

// Polls with a handle that has the poll context.
pub(crate) fn poll<'b>(
    at: &mut Handle<sys::fq_caller>,
    weight: Weight,
    batch: &'b mut Batch,
) -> &'b [Packet] {
    let at = at.raw();
    batch.filled_by(|out, count| calls::caller_poll(at, weight.get(), out, count))
}
