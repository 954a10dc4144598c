//! A machine that receives packets over simulated time.
use crate::calls;
use crate::fault::{set_by, Fault};
use crate::sys;
use std::error::Error;
use std::fmt;

/// The settings of the machine: by default those of `napi_machine`. Times are in nanoseconds; a flag is 0 or 1.
pub use crate::sys::fq_machine_settings as MachineSettings;

impl Default for MachineSettings {
    /// Returns the defaults of `napi_machine`.
    fn default() -> MachineSettings {
        set_by(
            "machine_default",
            MachineSettings::INIT,
            calls::machine_default_sized,
        )
    }
}

/// Why the machine has no report.
#[derive(Clone, Debug, PartialEq, Eq)]
pub enum MachineFault {
    /// The bytes aren't arrivals.
    Arrivals {
        /// The number of the error, 1 to 8.
        fault: u32,
        /// The row that the error names, counted from 1; 0 if it names none.
        row: u64,
        /// The message of the error, as `napi_machine` prints it.
        message: String,
    },
    /// The setting with this number is out of its range, or excludes another: 1 for `processors`, 2 for `queues`, and so on.
    Setting(u32),
    /// The call failed with [`OUT_OF_MEMORY`](Fault::OUT_OF_MEMORY), or because `size` isn't that of the struct.
    Refused(Fault),
}

impl fmt::Display for MachineFault {
    fn fmt(&self, f: &mut fmt::Formatter<'_>) -> fmt::Result {
        match self {
            MachineFault::Arrivals { message, .. } => f.write_str(message),
            MachineFault::Setting(number) => write!(
                f,
                "setting {number} is out of its range, or excludes another"
            ),
            MachineFault::Refused(fault) => fault.fmt(f),
        }
    }
}

impl Error for MachineFault {}

/// Returns the report of the machine for arrivals, as `napi_machine` writes it: latencies, drops, processor time.
///
/// ```
/// use fintaqush::{machine, MachineFault, MachineSettings};
///
/// let settings = MachineSettings { rx_nsecs: 50_000, ..MachineSettings::default() };
/// let report = machine(b"ns,device,bytes\n1000,1,60\n", &settings).unwrap();
/// assert!(report.starts_with(b"device 1 arrived 1 dropped 0 polled 1 "));
///
/// let refused = machine(b"", &settings).unwrap_err();
/// assert_eq!(refused.to_string(), "arrivals fault 1 BadHeader row 0");
/// let heavy = MachineSettings { weight: 65, ..settings };
/// assert_eq!(machine(b"", &heavy), Err(MachineFault::Setting(7)));
/// ```
pub fn machine(arrivals: &[u8], settings: &MachineSettings) -> Result<Vec<u8>, MachineFault> {
    let mut report = vec![0; 4096];
    let mut ran = sys::fq_machine_ran::INIT;
    loop {
        let said = calls::machine_sized(settings, arrivals, &mut report, &mut ran);
        match said {
            sys::FQ_NO_ROOM => report.resize(ran.length, 0),
            sys::FQ_BAD_SETTING => return Err(MachineFault::Setting(ran.setting)),
            sys::FQ_BAD_ARRIVALS => return Err(arrivals_fault(&ran)),
            _ => {
                Fault::unless_made(said).map_err(MachineFault::Refused)?;
                report.truncate(ran.length);
                return Ok(report);
            }
        }
    }
}

fn arrivals_fault(ran: &sys::fq_machine_ran) -> MachineFault {
    let message = ran.message.iter().take_while(|&&letter| letter != 0);
    MachineFault::Arrivals {
        fault: ran.fault,
        row: ran.row,
        message: message.map(|&letter| char::from(letter as u8)).collect(),
    }
}
