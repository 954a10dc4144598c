//! The packet polling core of Linux 6.6 (NAPI) and byte queue limits, over `libfintaqush.a`, whose
//! functions are proved; `docs/C.md` of the repository says what is proved.
//!
//! - [`Dql`]: a byte queue limit.
//! - [`SerialNapi`]: an instance of one thread.
//! - [`Shared`]: an instance that threads share, with its input, its controller and its callers.
//!   Types show which call is allowed: a call takes the value on which it is made, and returns the
//!   next one.
//! - [`Bare`]: such an instance without a ring.
//! - [`Ring`]: a receive ring, without an instance.
//! - [`place_ring`]: a ring without copies, over elements of any type.
//! - [`Word`]: pending bits, which other threads raise for a list's poller.
//! - [`TxRing`]: a transmit ring under a byte queue limit.
//! - [`List`]: a poll list, and runs over it.
//! - [`Driver`]: the driver of up to 64 devices on one thread, which returns what has to be done at a card.
//! - [`replay()`]: the whole replay of a trace, on one thread; [`raise_runs`] adds the runs that the kernel would make with a smaller
//!   budget.
//! - [`machine`](fn@machine): a machine that receives packets over simulated time, from arrivals to latencies.
//!
//! Every value may be sent to another thread. Only a [`Word`] may be used by two threads at a time; all others are `Send` but
//! not `Sync`, because the library allows one call at a time on an object.
//!
//! An example: one instance, a request for a poll that is granted, one that is missed, and two polls:
//!
//! ```
//! use fintaqush::{Done, Kind, Prep, SerialNapi};
//!
//! // Each caller of an instance has a number; the controller's is named when the instance is made.
//! const INTERRUPT: u32 = 0;
//! const POLLER: u32 = 1;
//! const CONTROLLER: u32 = 2;
//!
//! # fn main() -> Result<(), fintaqush::Fault> {
//! let mut napi = SerialNapi::new(CONTROLLER);
//! napi.enable(CONTROLLER, false)?;
//! assert_eq!(napi.schedule(INTERRUPT), Prep::Granted);
//! napi.hand(INTERRUPT, Kind::List)?;
//! assert_eq!(napi.schedule(INTERRUPT), Prep::Missed);
//!
//! assert!(napi.take(POLLER, Kind::List));
//! // .. the device is polled ..
//! assert_eq!(napi.complete(POLLER)?, Done::Again);
//! napi.hand(POLLER, Kind::List)?;
//! assert!(napi.take(POLLER, Kind::List));
//! assert_eq!(napi.complete(POLLER)?, Done::Released);
//! # Ok(())
//! # }
//! ```
#![deny(missing_docs, unsafe_op_in_unsafe_fn)]

mod answers;
mod busy;
mod caller;
mod calls;
mod card;
mod control;
mod dql;
mod driver;
mod fault;
mod handle;
mod list;
mod machine;
mod packets;
mod places;
mod polling;
mod replay;
mod ring;
mod serial;
mod shared;
pub mod sys;
mod transmit;
mod word;
mod words;

pub use answers::{Completed, End, Sched, TryBusy, TryDone, TryPrep, TryStop, TryTake};
pub use busy::Busy;
pub use caller::{Caller, Granted};
pub use card::{Card, Look, Poll};
pub use control::{Control, Marked, Mode, Off, On};
pub use dql::Dql;
pub use driver::{Cards, DeviceSettings, DeviceShown, DeviceState, Driver, Todo, What};
pub use fault::Fault;
pub use list::{List, Polled, Pushes, RunReport};
pub use machine::{machine, MachineFault, MachineSettings};
pub use packets::{Answers, Batch, Counts, Packet, RingShown, Totals, Weight};
pub use places::{place_ring, PlaceIn, PlaceOut};
pub use polling::Polling;
pub use replay::{raise_runs, replay, NoReport, Settings};
pub use ring::{Input, Output, Ring};
pub use serial::SerialNapi;
pub use shared::{Bare, Shared};
pub use transmit::{TxRing, TxState, TxWatchdog};
pub use word::Word;
pub use words::{Done, Kind, Next, Prep};
