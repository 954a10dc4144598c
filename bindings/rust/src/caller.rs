//! A caller of a shared instance that owns nothing, and one that was granted the instance.
use crate::answers::{Sched, TryBusy, TryPrep};
use crate::busy::Busy;
use crate::calls;
use crate::card::Card;
use crate::fault::{made, set_by, unexpected};
use crate::handle::Handle;
use crate::packets::Answers;
use crate::polling::Polling;
use crate::sys;
use crate::words::{Kind, Next, Prep};

/// A caller that owns nothing: an interrupt handler, or a poller or thread that isn't polling.
///
/// A caller has no poll context, so it can't poll:
///
/// ```compile_fail,E0599
/// use fintaqush::{Batch, Caller, Weight};
/// fn poll(mut caller: Caller, batch: &mut Batch) {
///     caller.poll(Weight::MAX, batch);
/// }
/// ```
///
/// A value that was passed to a call is gone, so there is never a second one for the same caller:
///
/// ```compile_fail,E0382
/// use fintaqush::{Caller, Kind, Sched};
/// fn schedule_twice(caller: Caller) -> (Sched, Sched) {
///     (caller.schedule(), caller.schedule())
/// }
/// ```
///
/// For the same reason it can't be copied:
///
/// ```compile_fail,E0599
/// use fintaqush::Caller;
/// fn twice(caller: Caller) -> (Caller, Caller) {
///     (caller.clone(), caller)
/// }
/// ```
///
/// It can be sent to another thread, but not shared by two:
///
/// ```
/// fn goes_to_a_thread<T: Send>() {}
/// goes_to_a_thread::<fintaqush::Caller>();
/// ```
///
/// ```compile_fail,E0277
/// fn is_used_by_two<T: Sync>() {}
/// fn caller() {
///     is_used_by_two::<fintaqush::Caller>();
/// }
/// ```
#[derive(Debug)]
#[must_use = "a caller that is dropped never calls again"]
pub struct Caller {
    pub(crate) at: Handle<sys::fq_caller>,
}

impl Caller {
    /// Tries once to request a poll (`napi_schedule_prep`). It doesn't wait.
    pub fn try_schedule(mut self) -> TryPrep {
        let said = calls::caller_schedule(self.at.raw());
        match Prep::of("caller_schedule", said) {
            Some(Prep::Granted) => TryPrep::Granted(Granted { at: self.at }),
            Some(Prep::Missed) => TryPrep::Missed(self),
            Some(Prep::Disabled) => TryPrep::Disabled(self),
            None => TryPrep::Changed(self),
        }
    }

    /// Requests a poll, and retries until an attempt decides (`napi_schedule_prep`).
    ///
    /// While a disable is pending no poll is requested, and while the instance is disabled no poll follows: schedule once after
    /// each [`enable`](crate::Control::enable).
    pub fn schedule(mut self) -> Sched {
        match self.prep() {
            Prep::Granted => Sched::Granted(Granted { at: self.at }),
            Prep::Missed => Sched::Missed(self),
            Prep::Disabled => Sched::Disabled(self),
        }
    }

    fn prep(&mut self) -> Prep {
        let said = calls::caller_schedule_prep(self.at.raw());
        match Prep::of("caller_schedule_prep", said) {
            Some(prep) => prep,
            None => unexpected("caller_schedule_prep", said),
        }
    }

    /// Handles an interrupt: requests a poll, and queues the instance if the request is granted.
    pub fn interrupt(&mut self, kind: Kind) -> Prep {
        self.interrupt_and(kind, || {})
    }

    /// Like [`interrupt`](Caller::interrupt), with [`mask`](Card::mask) between the grant and the queueing, where the kernel
    /// masks. If the card were masked after the queueing, a faster poller might have unmasked it before, and it would stay
    /// masked.
    ///
    /// If `mask` panics, the instance is never polled again.
    pub fn interrupt_masked(&mut self, kind: Kind, card: &mut impl Card) -> Prep {
        self.interrupt_and(kind, || card.mask())
    }

    fn interrupt_and(&mut self, kind: Kind, mask: impl FnOnce()) -> Prep {
        let prep = self.prep();
        if prep == Prep::Granted {
            mask();
            hand(&mut self.at, kind);
        }
        prep
    }

    /// Requests a poll (`napi_schedule`), for an interrupt, a timer or a driver's open. If the request is granted, queues the
    /// instance as the state word says. After [`Prep::Granted`], [`Next::Again`] says where it was queued: the number has to be
    /// listed, or the thread has to be woken. Otherwise the second result is [`Next::Gone`].
    pub fn request(&mut self) -> (Prep, Next) {
        self.request_and(|| {})
    }

    /// Like [`request`](Caller::request), with [`mask`](Card::mask) between the grant and the queueing.
    ///
    /// If `mask` panics, the instance is never polled again.
    pub fn request_masked(&mut self, card: &mut impl Card) -> (Prep, Next) {
        self.request_and(|| card.mask())
    }

    fn request_and(&mut self, mask: impl FnOnce()) -> (Prep, Next) {
        let prep = self.prep();
        if prep != Prep::Granted {
            return (prep, Next::Gone);
        }
        mask();
        (prep, hand_again(&mut self.at))
    }

    /// Reads the state word: a sum of the `FQ_BIT_..` of [`sys`].
    pub fn look(&self) -> u64 {
        self.at.look()
    }

    /// Takes the instance from the list or from its thread's queue, with its poll context (`net_rx_action`,
    /// `napi_thread_wait`). Returns `Err`, and changes nothing, if it isn't there.
    pub fn take(mut self, kind: Kind) -> Result<Polling, Caller> {
        match calls::caller_take(self.at.raw(), kind.number()) {
            sys::FQ_TAKEN => Ok(Polling { at: self.at }),
            sys::FQ_NOT_THERE => Err(self),
            said => unexpected("caller_take", said),
        }
    }

    /// The counts of the results of its calls, since the instance was made.
    pub fn answers(&self) -> Answers {
        self.at.answers()
    }

    /// Tries once to take an idle instance to busy poll it (`napi_busy_loop`). It doesn't wait.
    pub fn try_busy(mut self) -> TryBusy {
        match calls::caller_busy_take(self.at.raw()) {
            sys::FQ_TAKEN => TryBusy::Taken(Busy { at: self.at }),
            sys::FQ_BUSY => TryBusy::Refused(self),
            sys::FQ_CHANGED => TryBusy::Changed(self),
            said => unexpected("caller_busy_take", said),
        }
    }

    /// Takes an idle instance to busy poll it, and retries until an attempt decides (`napi_busy_loop`). Returns `Err` if it
    /// isn't idle.
    pub fn busy(self) -> Result<Busy, Caller> {
        let mut caller = self;
        loop {
            match caller.try_busy() {
                TryBusy::Taken(busy) => return Ok(busy),
                TryBusy::Refused(refused) => return Err(refused),
                TryBusy::Changed(changed) => caller = changed,
            }
        }
    }

    /// Sets whether the instance is scheduled on its own thread from now on (`dev_set_threaded`). Allowed in any state.
    pub fn set_threaded(&mut self, threaded: bool) {
        made(
            "caller_set_threaded",
            calls::caller_set_threaded(self.at.raw(), threaded),
        )
    }
}

/// A caller that was granted the instance, and has to queue it: otherwise the instance is never polled again.
#[derive(Debug)]
#[must_use = "an instance that is granted and not handed over is polled by nobody"]
pub struct Granted {
    pub(crate) at: Handle<sys::fq_caller>,
}

impl Granted {
    /// Reads the state word: a sum of the `FQ_BIT_..` of [`sys`].
    pub fn look(&self) -> u64 {
        self.at.look()
    }

    /// Queues the instance as the kernel does (`____napi_schedule`): for its thread if `FQ_BIT_THREADED` is set. Returns where:
    /// list the number, or wake the thread.
    pub fn hand_again(mut self) -> (Caller, Next) {
        let next = hand_again(&mut self.at);
        (Caller { at: self.at }, next)
    }

    /// Queues the instance on the list or for its thread, whatever the state word says.
    pub fn hand(mut self, kind: Kind) -> Caller {
        hand(&mut self.at, kind);
        Caller { at: self.at }
    }
}

// Queues a granted instance on the list or for its thread.
fn hand(at: &mut Handle<sys::fq_caller>, kind: Kind) {
    made("caller_hand", calls::caller_hand(at.raw(), kind.number()))
}

// Queues a granted instance as its state word says.
fn hand_again(at: &mut Handle<sys::fq_caller>) -> Next {
    let next = set_by("caller_hand_again", 0, |next| {
        calls::caller_hand_again(at.raw(), next)
    });
    Next::of("caller_hand_again", next)
}
