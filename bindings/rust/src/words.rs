//! Replies and choices that several kinds of calls have in common.
use crate::fault::unexpected;
use crate::sys;

/// The queue for a scheduled instance.
#[derive(Clone, Copy, Debug, PartialEq, Eq)]
pub enum Kind {
    /// The poll list of the softirq.
    List,
    /// The instance's own thread.
    Thread,
}

impl Kind {
    pub(crate) fn number(self) -> u32 {
        match self {
            Kind::List => sys::FQ_LIST,
            Kind::Thread => sys::FQ_THREAD,
        }
    }
}

/// The reply to a request for a poll (`napi_schedule_prep`).
#[derive(Clone, Copy, Debug, PartialEq, Eq)]
pub enum Prep {
    /// The caller owns the instance, and has to queue it.
    Granted,
    /// A poll is requested already, and another one follows it, unless the controller owns the instance.
    Missed,
    /// A disable is pending: no poll was requested.
    Disabled,
}

impl Prep {
    // Returns the reply, or `None` for the status of an attempt that decided nothing.
    pub(crate) fn of(call: &str, status: u32) -> Option<Prep> {
        match status {
            sys::FQ_GRANTED => Some(Prep::Granted),
            sys::FQ_MISSED => Some(Prep::Missed),
            sys::FQ_DISABLED => Some(Prep::Disabled),
            sys::FQ_CHANGED => None,
            status => unexpected(call, status),
        }
    }
}

/// The reply to the end of a poll (`napi_complete_done`).
#[derive(Clone, Copy, Debug, PartialEq, Eq)]
pub enum Done {
    /// No caller owns the instance any more.
    Released,
    /// A request was missed: the caller still owns the instance, and has to queue it again.
    Again,
    /// The instance is busy polled, and the caller keeps polling.
    Held,
}

/// How a poll of a run ended.
#[derive(Clone, Copy, Debug, PartialEq, Eq)]
pub enum Next {
    /// The device isn't on the list any more.
    Gone,
    /// A request was missed: the instance was queued again, on the list or for its thread.
    Again(Kind),
    /// The poll used its whole weight, and the device is polled again after all others.
    Repoll,
    /// The device wasn't on the list.
    Absent,
}

impl Next {
    pub(crate) fn of(call: &str, number: u32) -> Next {
        match number {
            sys::FQ_NEXT_GONE => Next::Gone,
            sys::FQ_NEXT_AGAIN => Next::Again(Kind::List),
            sys::FQ_NEXT_AGAIN_THREAD => Next::Again(Kind::Thread),
            sys::FQ_NEXT_REPOLL => Next::Repoll,
            sys::FQ_NEXT_ABSENT => Next::Absent,
            number => unexpected(call, number),
        }
    }

    pub(crate) fn number(self) -> u32 {
        match self {
            Next::Gone => sys::FQ_NEXT_GONE,
            Next::Again(Kind::List) => sys::FQ_NEXT_AGAIN,
            Next::Again(Kind::Thread) => sys::FQ_NEXT_AGAIN_THREAD,
            Next::Repoll => sys::FQ_NEXT_REPOLL,
            Next::Absent => sys::FQ_NEXT_ABSENT,
        }
    }
}
