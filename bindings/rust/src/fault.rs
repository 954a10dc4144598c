//! Why a call failed.
use crate::calls;
use crate::sys;
use std::error::Error;
use std::fmt;

/// Why a call was not made, by its number in `enum fq_status`. Such a call changes nothing.
///
/// ```
/// use fintaqush::{Dql, Fault};
///
/// let refused = Dql::new(2, 1, 1000, 0).unwrap_err();
/// assert_eq!(refused, Fault::BAD_BOUNDS);
/// assert_eq!(refused.to_string(), "FQ_BAD_BOUNDS");
/// ```
#[derive(Clone, Copy, PartialEq, Eq, Hash)]
pub struct Fault(u32);

impl Fault {
    // scripts/abi.py: begin
    /// Limit: min is above max, or max above 1879048192 bytes.
    pub const BAD_BOUNDS: Fault = Fault(sys::FQ_BAD_BOUNDS);
    /// Limit, send: an object of more than 268435455 bytes.
    pub const TOO_LARGE: Fault = Fault(sys::FQ_TOO_LARGE);
    /// Limit, send: more than 1073741823 bytes would be in flight.
    pub const TOO_MUCH_IN_FLIGHT: Fault = Fault(sys::FQ_TOO_MUCH_IN_FLIGHT);
    /// Limit: more bytes are completed than are in flight.
    pub const MORE_THAN_QUEUED: Fault = Fault(sys::FQ_MORE_THAN_QUEUED);
    /// Take, remove: the instance is not queued there, or the number is not on the list.
    pub const NOT_THERE: Fault = Fault(sys::FQ_NOT_THERE);
    /// Busy take, take disable, remove: another caller owns the instance, or a run has the number.
    pub const BUSY: Fault = Fault(sys::FQ_BUSY);
    /// Put, push, send: there is no room.
    pub const FULL: Fault = Fault(sys::FQ_FULL);
    /// Send: the limit has stopped the queue.
    pub const STOPPED: Fault = Fault(sys::FQ_STOPPED);
    /// Driver: this is not due, and nothing has changed.
    pub const NOT_DUE: Fault = Fault(sys::FQ_NOT_DUE);
    /// The state of the object does not allow this call.
    pub const NOT_ALLOWED: Fault = Fault(sys::FQ_NOT_ALLOWED);
    /// The kind is 0 (list) or 1 (thread).
    pub const BAD_KIND: Fault = Fault(sys::FQ_BAD_KIND);
    /// The handle has no object, or one of another kind.
    pub const BAD_HANDLE: Fault = Fault(sys::FQ_BAD_HANDLE);
    /// The handle is set already, or the number is listed already.
    pub const IN_USE: Fault = Fault(sys::FQ_IN_USE);
    /// Out of memory.
    pub const OUT_OF_MEMORY: Fault = Fault(sys::FQ_OUT_OF_MEMORY);
    /// The capacity of a ring is 1 to 65536.
    pub const BAD_CAPACITY: Fault = Fault(sys::FQ_BAD_CAPACITY);
    /// A weight is 1 to 64 packets.
    pub const BAD_WEIGHT: Fault = Fault(sys::FQ_BAD_WEIGHT);
    /// The array is too short.
    pub const NO_ROOM: Fault = Fault(sys::FQ_NO_ROOM);
    /// Budget and window are 1 to 65535.
    pub const BAD_BUDGET: Fault = Fault(sys::FQ_BAD_BUDGET);
    /// A shared instance has 2 to 8 callers, a driver 1 to 64 devices.
    pub const BAD_COUNT: Fault = Fault(sys::FQ_BAD_COUNT);
    /// How a poll ended is 0 to 4 (enum `fq_next`).
    pub const BAD_NEXT: Fault = Fault(sys::FQ_BAD_NEXT);
    /// A poll is reported with more packets than the weight.
    pub const BAD_WORK: Fault = Fault(sys::FQ_BAD_WORK);
    /// Replay, raise: the bytes are not a trace, or a row of it can't be processed.
    pub const BAD_TRACE: Fault = Fault(sys::FQ_BAD_TRACE);
    /// The driver has no device with this number.
    pub const BAD_DEVICE: Fault = Fault(sys::FQ_BAD_DEVICE);
    /// A struct's size is not one that the library knows.
    pub const BAD_SIZE: Fault = Fault(sys::FQ_BAD_SIZE);
    /// Driver, machine: a setting is out of its range, or doesn't go with another.
    pub const BAD_SETTING: Fault = Fault(sys::FQ_BAD_SETTING);
    /// Machine: the bytes are not arrivals.
    pub const BAD_ARRIVALS: Fault = Fault(sys::FQ_BAD_ARRIVALS);
    /// Done: more packets are completed than were sent.
    pub const MORE_THAN_SENT: Fault = Fault(sys::FQ_MORE_THAN_SENT);
    /// Driver: an action waits for its report, and this is not it.
    pub const NOT_REPORTED: Fault = Fault(sys::FQ_NOT_REPORTED);
    // scripts/abi.py: end

    /// Returns its number.
    pub fn number(self) -> u32 {
        self.0
    }

    /// Returns its name, for example `"FQ_FULL"`.
    pub fn name(self) -> &'static str {
        sys::fq_status_name(self.0)
    }

    /// Returns its message, for example `"a weight is 1 to 64 packets"`.
    pub fn message(self) -> String {
        let mut text = vec![0; sys::FQ_MESSAGE_ROOM];
        let length = calls::status_message(self.0, &mut text);
        text.truncate(length);
        String::from_utf8_lossy(&text).into_owned()
    }

    // Returns `Ok` if the status is `FQ_OK`, otherwise the error.
    pub(crate) fn unless_made(status: u32) -> Result<(), Fault> {
        match status {
            sys::FQ_OK => Ok(()),
            fault => Err(Fault(fault)),
        }
    }
}

impl fmt::Display for Fault {
    fn fmt(&self, f: &mut fmt::Formatter<'_>) -> fmt::Result {
        f.write_str(self.name())
    }
}

impl fmt::Debug for Fault {
    fn fmt(&self, f: &mut fmt::Formatter<'_>) -> fmt::Result {
        f.write_str(self.name())
    }
}

impl Error for Fault {}

// Panics, because the header doesn't name this number for the call: library and header are of different versions.
#[cold]
pub(crate) fn unexpected(call: &str, status: u32) -> ! {
    panic!(
        "fq_{call} returned {status}: {}",
        sys::fq_status_name(status)
    )
}

// Panics unless a call that can't fail returned FQ_OK.
pub(crate) fn made(call: &str, said: u32) {
    if said != sys::FQ_OK {
        unexpected(call, said)
    }
}

// Returns what such a call sets.
pub(crate) fn set_by<T>(call: &str, mut to: T, make: impl FnOnce(&mut T) -> u32) -> T {
    made(call, make(&mut to));
    to
}
