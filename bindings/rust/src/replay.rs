//! The whole replay on one thread.
use crate::calls;
use crate::fault::Fault;
use crate::sys;
use std::error::Error;
use std::fmt;

/// The settings of a replay: the budget and the window of a run, and the weight of a poll.
pub use crate::sys::fq_settings as Settings;

impl Default for Settings {
    /// Returns the defaults of `napi_replay`.
    fn default() -> Settings {
        Settings {
            budget: 300,
            weight: 64,
            window: 1024,
            ..Settings::INIT
        }
    }
}

/// Why a trace has no report.
#[derive(Clone, Copy, Debug, PartialEq, Eq)]
pub enum NoReport {
    /// The bytes aren't a trace, or a row of it can't be processed.
    Trace {
        /// The number of the error, 1 to 12.
        fault: u32,
        /// The row that the error names, counted from 1; 0 if it names none.
        row: u32,
    },
    /// The call failed with [`BAD_WEIGHT`](Fault::BAD_WEIGHT), [`BAD_BUDGET`](Fault::BAD_BUDGET) or
    /// [`OUT_OF_MEMORY`](Fault::OUT_OF_MEMORY).
    Refused(Fault),
}

impl fmt::Display for NoReport {
    fn fmt(&self, f: &mut fmt::Formatter<'_>) -> fmt::Result {
        match self {
            NoReport::Trace { fault, row } => {
                let name = sys::fq_fault_name(*fault);
                write!(f, "trace fault {fault} {name} row {row}")
            }
            NoReport::Refused(fault) => fault.fmt(f),
        }
    }
}

impl Error for NoReport {}

/// Returns the report of a trace, as `napi_replay --mode=serial` writes it.
///
/// ```
/// use fintaqush::{replay, NoReport, Settings};
///
/// let report = replay(b"moment,device,event,value\n", &Settings::default()).unwrap();
/// let wanted = "list\ntotal devices 0 runs 0 polls 0 work 0 squeezed 0\n";
/// assert_eq!(report, wanted.as_bytes());
///
/// let refused = replay(b"", &Settings::default()).unwrap_err();
/// assert_eq!(refused, NoReport::Trace { fault: 1, row: 0 });
/// assert_eq!(refused.to_string(), "trace fault 1 BadHeader row 0");
/// ```
pub fn replay(trace: &[u8], settings: &Settings) -> Result<Vec<u8>, NoReport> {
    written(|out, replayed| calls::replay_sized(settings, trace, out, replayed))
}

/// Adds to a trace the runs that the kernel would make with these settings, as `fintaqush replay --raise` does, and returns the trace.
///
/// A trace has only the runs of the machine where it was recorded. If a run leaves devices on the poll list, because budget or
/// weight is smaller than there, the kernel raises the softirq again (`net_rx_action`). So a softirq row that leaves devices on
/// the list is repeated until the list is empty, or `restarts` rows were added; [`None`] is no such limit. One that is followed
/// by another at the same time has its added run already.
///
/// # Errors
/// Those of [`replay`]: a pending disable ([`NoReport::Trace`], fault 12) names a row of the trace with the added rows, and fault
/// 9 says that this trace would have more than 100000 rows.
///
/// ```
/// use fintaqush::{raise_runs, replay, Settings};
///
/// # fn main() -> Result<(), fintaqush::NoReport> {
/// let trace = "moment,device,event,value\n0,1,open,8\n1,1,rx,60\n1,1,rx,60\n2,0,softirq,0\n";
/// let small = Settings { budget: 1, weight: 1, ..Settings::default() };
/// let raised = raise_runs(trace.as_bytes(), &small, None)?;
/// // Two runs take a packet each. Each poll was full, and a packet came while a poll was requested, so a third run polls without a packet.
/// assert_eq!(raised, [trace, "2,0,softirq,0\n", "2,0,softirq,0\n"].concat().into_bytes());
/// let report = replay(&raised, &small)?;
/// # assert!(report.ends_with(b"\nlist\ntotal devices 1 runs 3 polls 4 work 2 squeezed 2\n"));
/// # Ok(())
/// # }
/// ```
pub fn raise_runs(
    trace: &[u8],
    settings: &Settings,
    restarts: Option<u32>,
) -> Result<Vec<u8>, NoReport> {
    let restarts = restarts.unwrap_or(sys::FQ_UNTIL_EMPTY);
    written(|out, replayed| calls::raise_sized(settings, restarts, trace, out, replayed))
}

// Returns what a call writes to an array of this many bytes, which grows until there is room.
fn written(call: impl Fn(&mut [u8], &mut sys::fq_replayed) -> u32) -> Result<Vec<u8>, NoReport> {
    let mut out = vec![0; 4096];
    loop {
        let mut replayed = sys::fq_replayed::INIT;
        match call(&mut out, &mut replayed) {
            sys::FQ_NO_ROOM => out.resize(replayed.length, 0),
            sys::FQ_BAD_TRACE => {
                return Err(NoReport::Trace {
                    fault: replayed.fault,
                    row: replayed.row,
                })
            }
            said => {
                Fault::unless_made(said).map_err(NoReport::Refused)?;
                out.truncate(replayed.length);
                return Ok(out);
            }
        }
    }
}
