//! The controller of a shared instance, which enables and disables it.
use crate::answers::TryTake;
use crate::caller::Caller;
use crate::calls;
use crate::card::Card;
use crate::fault::{made, unexpected};
use crate::handle::Handle;
use crate::packets::Counts;
use crate::sys;
use crate::words::{Next, Prep};
use std::marker::PhantomData;
use std::thread;

/// The instance is disabled.
#[derive(Debug)]
pub enum Off {}

/// The instance is enabled.
#[derive(Debug)]
pub enum On {}

/// A disable is pending: the controller takes the instance as soon as its owner releases it.
#[derive(Debug)]
pub enum Marked {}

mod sealed {
    pub trait Sealed {}
    impl Sealed for super::Off {}
    impl Sealed for super::On {}
    impl Sealed for super::Marked {}
}

/// What the controller did last with the instance: [`Off`], [`On`] or [`Marked`].
pub trait Mode: sealed::Sealed {}
impl Mode for Off {}
impl Mode for On {}
impl Mode for Marked {}

/// The controller of an instance: the driver's open and stop.
///
/// An instance that is enabled can't be enabled again:
///
/// ```compile_fail,E0599
/// use fintaqush::{Control, On};
/// fn enable_twice(control: Control<On>) -> Control<On> {
///     control.enable(false)
/// }
/// ```
#[derive(Debug)]
#[must_use = "without its controller an instance is never disabled"]
pub struct Control<M: Mode> {
    at: Handle<sys::fq_control>,
    mode: PhantomData<M>,
}

impl<M: Mode> Control<M> {
    pub(crate) fn of(at: Handle<sys::fq_control>) -> Control<M> {
        Control {
            at,
            mode: PhantomData,
        }
    }
}

impl Control<Off> {
    /// The counts of the ring's polls.
    pub fn counts(&self) -> Counts {
        self.at.counts()
    }

    /// Tries once to enable the instance, and sets whether it is scheduled on its own thread (`napi_enable`). It doesn't wait.
    /// Returns `Err` if another thread interfered; nothing is decided then.
    pub fn try_enable(mut self, threaded: bool) -> Result<Control<On>, Control<Off>> {
        match calls::control_enable(self.at.raw(), threaded) {
            sys::FQ_OK => Ok(Control::of(self.at)),
            sys::FQ_CHANGED => Err(self),
            said => unexpected("control_enable", said),
        }
    }

    /// Enables the instance, and retries until an attempt decides (`napi_enable`). Request a poll once after it, or enable by
    /// [`open`](Control::open): packets that arrived while the instance was disabled are polled only after the next request.
    /// Without one, a masked card with a full ring would wait forever.
    pub fn enable(mut self, threaded: bool) -> Control<On> {
        made(
            "control_step",
            calls::control_step(self.at.raw(), true, threaded),
        );
        Control::of(self.at)
    }

    /// Opens the device of a driver: enables the instance, and requests a poll once by this caller, with [`mask`](Card::mask)
    /// if the request is granted. Returns what [`request_masked`](Caller::request_masked) returns; `Err`, and nothing is done, if
    /// the caller is another instance's.
    pub fn open(
        mut self,
        threaded: bool,
        caller: &mut Caller,
        card: &mut impl Card,
    ) -> Result<(Control<On>, Prep, Next), Control<Off>> {
        if calls::control_has(self.at.raw(), caller.at.raw()) != sys::FQ_OK {
            return Err(self);
        }
        let on = self.enable(threaded);
        let (prep, next) = caller.request_masked(card);
        Ok((on, prep, next))
    }
}

impl Control<On> {
    /// Marks a disable as pending (the first step of `napi_disable`): from now on requests for a poll fail.
    pub fn mark(mut self) -> Control<Marked> {
        made("control_mark", calls::control_mark(self.at.raw()));
        Control::of(self.at)
    }

    /// Disables the instance (`napi_disable`): marks it, and retries until its owner has released it. Between attempts it
    /// yields the processor. An instance that is on a list has to be taken and completed by a poller; otherwise this never
    /// returns.
    pub fn disable(mut self) -> Control<Off> {
        loop {
            match calls::control_step(self.at.raw(), false, false) {
                sys::FQ_OK => return Control::of(self.at),
                sys::FQ_BUSY => thread::yield_now(),
                said => unexpected("control_step", said),
            }
        }
    }
}

impl Control<Marked> {
    /// Tries once to take the instance, if no caller owns it, and clears the mark (the second and third step of
    /// `napi_disable`). It doesn't wait.
    pub fn try_take(mut self) -> TryTake {
        match calls::control_try_take(self.at.raw()) {
            sys::FQ_TAKEN => TryTake::Taken(Control::of(self.at)),
            sys::FQ_BUSY => TryTake::Busy(self),
            sys::FQ_CHANGED => TryTake::Changed(self),
            said => unexpected("control_try_take", said),
        }
    }
}
