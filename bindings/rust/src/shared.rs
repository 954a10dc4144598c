//! Instances that threads share.
use crate::caller::Caller;
use crate::calls;
use crate::control::{Control, Off};
use crate::fault::Fault;
use crate::handle::{Handle, Object};
use crate::ring::{Input, Ring};
use crate::sys;

/// A new instance that threads share: the input of its ring, its controller, and its callers, 2 to
/// 8. Each goes to a thread of its own; a caller that isn't needed may be dropped.
///
/// ```
/// use fintaqush::{Batch, Completed, Fault, Kind, Packet, Prep, Shared, Weight};
///
/// # fn main() -> Result<(), Fault> {
/// let Shared { mut input, control, callers: [mut interrupts, poller] } = Shared::new(256)?;
/// let on = control.enable(false);
/// input.put(Packet { number: 1, bytes: 60 })?;
/// assert_eq!(interrupts.interrupt(Kind::List), Prep::Granted);
///
/// let mut batch = Batch::new();
/// let mut polling = poller.take(Kind::List).expect("it was handed to the list");
/// assert_eq!(polling.poll(Weight::MAX, &mut batch), [Packet { number: 1, bytes: 60 }]);
/// assert!(matches!(polling.complete(), Completed::Released(_)));
/// let off = on.disable();
/// # drop(off);
/// # Ok(())
/// # }
/// ```
#[derive(Debug)]
pub struct Shared<const CALLERS: usize> {
    /// The input end of its ring.
    pub input: Input,
    /// The controller of the instance, which is disabled.
    pub control: Control<Off>,
    /// The callers of the instance, which own nothing yet.
    pub callers: [Caller; CALLERS],
}

impl<const CALLERS: usize> Shared<CALLERS> {
    /// Makes an instance with a ring of capacity 1 to 65536, and 2 to 8 callers. Fails with
    /// [`BAD_CAPACITY`](Fault::BAD_CAPACITY), [`BAD_COUNT`](Fault::BAD_COUNT) or [`OUT_OF_MEMORY`](Fault::OUT_OF_MEMORY).
    pub fn new(capacity: usize) -> Result<Shared<CALLERS>, Fault> {
        let mut ring = Ring::new(capacity)?;
        let mut control = Handle::NONE;
        let mut callers = [<sys::fq_caller as Object>::UNSET; CALLERS];
        Fault::unless_made(calls::shared_new(
            ring.at.raw(),
            control.raw(),
            &mut callers,
        ))?;
        Ok(Shared {
            input: Input { at: ring.at },
            control: Control::of(control),
            callers: callers.map(|at| Caller { at: Handle(at) }),
        })
    }
}

/// A new instance without a ring, for a card that the driver polls itself: its controller, and its callers, 2 to 8. A
/// [`poll`](crate::Polling::poll) returns no packets there.
#[derive(Debug)]
pub struct Bare<const CALLERS: usize> {
    /// The controller of the instance, which is disabled.
    pub control: Control<Off>,
    /// The callers of the instance, which own nothing yet.
    pub callers: [Caller; CALLERS],
}

impl<const CALLERS: usize> Bare<CALLERS> {
    /// Makes an instance with 2 to 8 callers. Fails with [`BAD_COUNT`](Fault::BAD_COUNT) or
    /// [`OUT_OF_MEMORY`](Fault::OUT_OF_MEMORY).
    pub fn new() -> Result<Bare<CALLERS>, Fault> {
        let mut control = Handle::NONE;
        let mut callers = [<sys::fq_caller as Object>::UNSET; CALLERS];
        Fault::unless_made(calls::shared_bare(control.raw(), &mut callers))?;
        Ok(Bare {
            control: Control::of(control),
            callers: callers.map(|at| Caller { at: Handle(at) }),
        })
    }
}
