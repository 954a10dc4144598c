//! The results of the calls on a shared instance, each with the value for the next call.
use crate::busy::Busy;
use crate::caller::{Caller, Granted};
use crate::control::{Control, Marked, Off};
use crate::polling::Polling;
use crate::words::Next;

/// The result of one attempt to schedule.
#[derive(Debug)]
pub enum TryPrep {
    /// The caller owns the instance, and has to queue it (`napi_schedule_prep` returns true).
    Granted(Granted),
    /// A poll is requested already, and another one follows it, unless the controller owns the instance.
    Missed(Caller),
    /// A disable is pending: no poll was requested.
    Disabled(Caller),
    /// Another thread interfered: nothing is decided.
    Changed(Caller),
}

/// The result of a schedule.
#[derive(Debug)]
pub enum Sched {
    /// The caller owns the instance, and has to queue it (`napi_schedule_prep` returns true).
    Granted(Granted),
    /// A poll is requested already, and another one follows it, unless the controller owns the instance.
    Missed(Caller),
    /// A disable is pending: no poll was requested.
    Disabled(Caller),
}

/// The result of one attempt to complete.
#[derive(Debug)]
pub enum TryDone {
    /// No caller owns the instance any more (`napi_complete_done` returns true).
    Released(Caller),
    /// A poll was requested meanwhile: the caller still owns the instance, and has to queue it again.
    Again(Granted),
    /// Another thread interfered: nothing is decided.
    Changed(Polling),
}

/// The result of a completion.
#[derive(Debug)]
pub enum Completed {
    /// No caller owns the instance any more (`napi_complete_done` returns true).
    Released(Caller),
    /// A poll was requested meanwhile: the caller still owns the instance, and has to queue it again.
    Again(Granted),
}

/// The result of ending a poll as the kernel ends it.
#[derive(Debug)]
#[must_use = "a poller that is dropped polls no more"]
pub enum End {
    /// The caller, which owns nothing now, and how the poll ended, for a run.
    Over(Caller, Next),
    /// The poll was a full one by a thread, which polls again at once.
    Held(Polling),
}

/// The result of one attempt to busy poll.
#[derive(Debug)]
pub enum TryBusy {
    /// The caller owns the instance, and busy polls it.
    Taken(Busy),
    /// A poll is requested or in progress, or the instance is disabled, or a disable is pending.
    Refused(Caller),
    /// Another thread interfered: nothing is decided.
    Changed(Caller),
}

/// The result of one attempt to stop busy polling.
#[derive(Debug)]
pub enum TryStop {
    /// The caller polls the instance once more.
    Stopped(Polling),
    /// Another thread interfered: nothing is decided.
    Changed(Busy),
}

/// The result of one attempt to take the instance for a disable.
#[derive(Debug)]
pub enum TryTake {
    /// The instance is disabled, and the disable isn't pending any more.
    Taken(Control<Off>),
    /// A poll is requested or in progress.
    Busy(Control<Marked>),
    /// Another thread interfered: nothing is decided.
    Changed(Control<Marked>),
}
