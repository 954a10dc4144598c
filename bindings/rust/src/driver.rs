//! The driver of up to 64 devices on one thread.
use crate::calls;
use crate::fault::{set_by, unexpected, Fault};
use crate::handle::Handle;
use crate::list::RunReport;
use crate::packets::Weight;
use crate::sys;
use crate::words::Prep;
use std::sync::atomic::{AtomicU16, Ordering};

// How many drivers the program has made, so that each numbers its actions from another number on.
static MADE: AtomicU16 = AtomicU16::new(0);

/// What a driver has to do next.
#[derive(Clone, Copy, Debug, PartialEq, Eq)]
pub enum What {
    /// Do nothing until the next interrupt, open or stop.
    Sleep,
    /// Mask the interrupt of the card of this device.
    Mask(u32),
    /// Unmask the interrupt of the card of this device.
    Unmask(u32),
    /// Look whether the card of this device has packets, and report how many, or 1 if it has any.
    Look(u32),
    /// Take packets from the card of this device and deliver them, and report how many.
    Fetch {
        /// The number of the device.
        device: u32,
        /// The most packets that may be taken.
        most: u32,
        /// Whether the interrupt of the card has to be masked first.
        mask: bool,
    },
    /// Set the timer of this device, so that it expires once, and then report it by [`Driver::timer`].
    Timer {
        /// The number of the device.
        device: u32,
        /// The time until it expires.
        nanoseconds: u64,
    },
    /// A run ended (`net_rx_action`): it was squeezed, or devices wait for the next run. Do other work first, if there is some.
    Ended(RunReport),
}

/// An action that has to be done, and then reported by [`Driver::turn`], [`Driver::step`] or [`Driver::done`].
#[derive(Clone, Copy, Debug, PartialEq, Eq)]
pub struct Todo {
    raw: sys::fq_todo,
}

impl Todo {
    /// No action, for the first [`Driver::turn`]: there is nothing to report.
    pub const NONE: Todo = Todo {
        raw: sys::fq_todo {
            number: 0,
            nanoseconds: 0,
            what: sys::FQ_TODO_SLEEP,
            device: 0,
            most: 0,
            packets: 0,
            rearm: sys::FQ_REARM_NO,
            status: sys::FQ_OK as u16,
            mask: false,
            squeezed: false,
        },
    };

    /// Sets the packets that a look found or a fetch took, for the report. Without it, a look counts as one that found packets.
    pub fn set_packets(&mut self, packets: u32) {
        self.raw.packets = packets;
    }

    /// Sets that a fetch also unmasked the card and then looked at it, and whether the card had packets, for the report. Such a
    /// fetch has to be reported.
    pub fn set_rearmed(&mut self, has_more: bool) {
        self.raw.rearm = if has_more {
            sys::FQ_REARM_MORE
        } else {
            sys::FQ_REARM_EMPTY
        };
    }

    /// Returns the report of the run that ended, if one did: it comes with [`What::Ended`] or [`What::Sleep`].
    pub fn run(&self) -> Option<RunReport> {
        let is_at_a_device = !matches!(self.raw.what, sys::FQ_TODO_ENDED | sys::FQ_TODO_SLEEP);
        (!is_at_a_device && self.raw.most > 0).then(|| self.report())
    }

    /// Returns whether the driver waited for the last report. If not, an interrupt, an open or a stop had come before it.
    pub fn was_due(&self) -> bool {
        u32::from(self.raw.status) != sys::FQ_NOT_DUE
    }

    fn report(&self) -> RunReport {
        RunReport {
            polls: self.raw.most,
            work: self.raw.packets,
            squeezed: self.raw.squeezed,
            ..RunReport::INIT
        }
    }

    /// Returns the action.
    pub fn what(&self) -> What {
        let sys::fq_todo {
            device,
            most,
            mask,
            nanoseconds,
            ..
        } = self.raw;
        match self.raw.what {
            // a call that failed has returned why
            sys::FQ_TODO_SLEEP | sys::FQ_TODO_FAILED => What::Sleep,
            sys::FQ_TODO_MASK => What::Mask(device),
            sys::FQ_TODO_UNMASK => What::Unmask(device),
            sys::FQ_TODO_LOOK => What::Look(device),
            sys::FQ_TODO_FETCH => What::Fetch { device, most, mask },
            sys::FQ_TODO_TIMER => What::Timer {
                device,
                nanoseconds,
            },
            sys::FQ_TODO_ENDED => What::Ended(self.report()),
            what => unexpected("driver_next", what),
        }
    }
}

/// The cards of a driver, by the numbers of their devices.
pub trait Cards {
    /// Masks the interrupt of a card.
    fn mask(&mut self, device: u32);
    /// Unmasks the interrupt of a card.
    fn unmask(&mut self, device: u32);
    /// Returns whether a card has packets.
    fn look(&mut self, device: u32) -> bool;
    /// Takes at most this many packets from a card, delivers them, and returns how many.
    fn fetch(&mut self, device: u32, most: u32) -> u32;
    /// Unmasks the interrupt of a card after a fetch of fewer packets, then looks at the card, and returns whether it has any. This
    /// saves two actions. `None`, which is the default, does nothing: an unmask and a look follow.
    /// With deferral or busy polling of the device it has to be `None`.
    fn rearm(&mut self, _device: u32) -> Option<bool> {
        None
    }
    /// Sets the timer of a device, so that it expires once; a timer that is still set is replaced. Only for a device with deferral.
    ///
    /// # Panics
    ///
    /// The default panics.
    fn timer(&mut self, device: u32, nanoseconds: u64) {
        panic!("fintaqush: these cards have no timer of {nanoseconds} ns for device {device}")
    }
}

/// The settings of a device, for [`Driver::set`].
#[derive(Clone, Copy, Debug, Default, PartialEq, Eq)]
pub struct DeviceSettings {
    /// The packets that a fetch may take (`netif_napi_add_weight`): at most the driver's weight.
    pub weight: Weight,
    /// How many completions in a row defer the interrupt after the last fetch with packets (`napi_defer_hard_irqs`).
    pub defer_hard_irqs: u32,
    /// For how many nanoseconds each does; 0 turns deferral off.
    pub gro_flush_timeout: u64,
    /// With busy polling, the empty fetches in a row after which the card is unmasked; 0: no busy polling.
    pub empty_polls: u32,
}

/// Whether a device is open.
#[derive(Clone, Copy, Debug, PartialEq, Eq)]
pub enum DeviceState {
    /// The device is closed, and its card is masked.
    Closed,
    /// The device is open.
    Open,
    /// The device is being stopped.
    Stopping,
}

/// The state of a device, and the counts of its polls. Each count saturates.
#[derive(Clone, Copy, Debug, PartialEq, Eq)]
pub struct DeviceShown {
    /// Whether the device is open.
    pub state: DeviceState,
    /// Whether a poll is requested and isn't completed (`NAPI_STATE_SCHED`).
    pub scheduled: bool,
    /// Whether an interrupt came meanwhile (`NAPI_STATE_MISSED`).
    pub missed: bool,
    /// Fetches that were reported.
    pub polls: u64,
    /// The packets of these fetches.
    pub packets: u64,
}

/// The driver of up to 64 devices on one thread: their instances, the poll list and the runs over it. It returns what has to be
/// done at a card, and the caller reports that it was done.
///
/// Calls may come in any order: what isn't due fails with [`NOT_DUE`](Fault::NOT_DUE) and changes nothing. The driver returns
/// [`What::Sleep`] only if the card of each open device was unmasked, was looked at after that and had no packets, or its timer was
/// set, and no poll is requested.
///
/// A loop needs only [`turn`](Driver::turn). A packet that interrupts takes two turns: the first says to mask the card and to fetch,
/// the second, if the fetch also unmasked the card and looked at it, to sleep.
///
/// ```
/// use fintaqush::{Driver, Fault, Todo, Weight, What};
///
/// # fn main() -> Result<(), Fault> {
/// let (mut masked, mut packets, mut interrupts) = (true, 100, 0);
/// let mut driver = Driver::new(1, 300, Weight::MAX, 1024)?;
/// driver.open(0)?;
/// let mut todo = Todo::NONE;
/// for _ in 0..2 {
///     loop {
///         match driver.turn(std::mem::take(&mut interrupts), &mut todo)? {
///             What::Sleep => break,
///             What::Mask(_) => masked = true,
///             What::Unmask(_) => masked = false,
///             What::Look(_) => todo.set_packets(packets),
///             What::Fetch { most, mask, .. } => {
///                 masked |= mask;
///                 let taken = most.min(packets);
///                 packets -= taken;
///                 todo.set_packets(taken);
///                 if packets == 0 {
///                     masked = false;
///                     todo.set_rearmed(packets > 0); // looks again, because packets may have come before the unmask
///                 }
///             }
///             What::Timer { .. } | What::Ended(_) => {}
///         }
///     }
///     assert_eq!((masked, packets), (false, 0));
///     (packets, interrupts) = (1, 1 << 0); // a packet, which interrupts
/// }
/// assert_eq!(driver.shown(0)?.packets, 101);
/// # Ok(())
/// # }
/// ```
///
/// With [`Cards`], [`act`](Driver::act) does the actions:
///
/// ```
/// use fintaqush::{Cards, Driver, Fault, Weight, What};
///
/// struct Card {
///     masked: bool,
///     packets: u32,
/// }
///
/// impl Cards for Card {
///     fn mask(&mut self, _: u32) {
///         self.masked = true;
///     }
///     fn unmask(&mut self, _: u32) {
///         self.masked = false;
///     }
///     fn look(&mut self, _: u32) -> bool {
///         self.packets > 0
///     }
///     fn fetch(&mut self, _: u32, most: u32) -> u32 {
///         let taken = most.min(self.packets);
///         self.packets -= taken;
///         taken
///     }
/// }
///
/// # fn main() -> Result<(), Fault> {
/// let mut card = Card { masked: true, packets: 100 };
/// let mut driver = Driver::new(1, 300, Weight::MAX, 1024)?;
/// driver.open(0)?;
/// while driver.act(&mut card)? != What::Sleep {}
/// assert_eq!((card.masked, card.packets), (false, 0));
/// assert_eq!(driver.shown(0)?.polls, 2);
/// # Ok(())
/// # }
/// ```
#[derive(Debug)]
pub struct Driver {
    at: Handle<sys::fq_driver>,
}

impl Driver {
    /// Returns a driver of 1 to 64 devices, all closed. Fails with [`BAD_COUNT`](Fault::BAD_COUNT), with
    /// [`BAD_BUDGET`](Fault::BAD_BUDGET) unless budget (packets) and window (polls) are 1 to 65535, or with
    /// [`OUT_OF_MEMORY`](Fault::OUT_OF_MEMORY).
    pub fn new(devices: u32, budget: u32, weight: Weight, window: u32) -> Result<Driver, Fault> {
        let mut at = Handle::NONE;
        let weight = weight.get() as u32;
        let salt = MADE.fetch_add(1, Ordering::Relaxed);
        let said = calls::driver_new_salted(at.raw(), devices, budget, weight, window, salt);
        Fault::unless_made(said)?;
        Ok(Driver { at })
    }

    /// Opens a closed device (`napi_enable`). Fails with [`NOT_DUE`](Fault::NOT_DUE) if it isn't closed, and with
    /// [`BAD_DEVICE`](Fault::BAD_DEVICE).
    pub fn open(&mut self, device: u32) -> Result<(), Fault> {
        Fault::unless_made(calls::driver_open(self.at.raw(), device))
    }

    /// Stops an open device (`napi_disable`): polls that were requested are made, its card is masked, and then it is closed.
    /// Fails with [`NOT_DUE`](Fault::NOT_DUE) if it isn't open, and with [`BAD_DEVICE`](Fault::BAD_DEVICE).
    pub fn stop(&mut self, device: u32) -> Result<(), Fault> {
        Fault::unless_made(calls::driver_stop(self.at.raw(), device))
    }

    /// Reports that the action in `todo` was done, then the interrupts of the devices whose bits are set, and sets `todo` to what has to
    /// be done now, which it returns. [`Todo::NONE`] reports nothing. A report that the driver doesn't wait for any more changes
    /// nothing ([`Todo::was_due`]). If it fails, `todo` is no action: with [`BAD_DEVICE`](Fault::BAD_DEVICE) for a bit without a
    /// device, and nothing has changed; with [`NOT_REPORTED`](Fault::NOT_REPORTED) if the driver waits for the report of another
    /// action, which [`next`](Driver::next) returns again; with [`BAD_WORK`](Fault::BAD_WORK) if a fetch took too many packets.
    pub fn turn(&mut self, interrupts: u64, todo: &mut Todo) -> Result<What, Fault> {
        let said = calls::driver_turn(self.at.raw(), interrupts, &mut todo.raw);
        Fault::unless_made(said).map(|()| todo.what())
    }

    /// Reports an interrupt of a card (`napi_schedule`), at any time. Report those that came before each step or act: a device
    /// that always has packets keeps the driver from sleeping. Fails with [`BAD_DEVICE`](Fault::BAD_DEVICE).
    pub fn interrupt(&mut self, device: u32) -> Result<Prep, Fault> {
        match calls::driver_interrupt(self.at.raw(), device) {
            sys::FQ_BAD_DEVICE => Err(Fault::BAD_DEVICE),
            said => Prep::of("driver_interrupt", said)
                .map_or_else(|| unexpected("driver_interrupt", said), Ok),
        }
    }

    /// Reports that the timer of a device expired (`napi_watchdog`), at any time. Returns whether that requested a poll. Fails with
    /// [`BAD_DEVICE`](Fault::BAD_DEVICE).
    pub fn timer(&mut self, device: u32) -> Result<bool, Fault> {
        match calls::driver_timer(self.at.raw(), device) {
            sys::FQ_GRANTED => Ok(true),
            sys::FQ_NOT_DUE => Ok(false),
            sys::FQ_BAD_DEVICE => Err(Fault::BAD_DEVICE),
            said => unexpected("driver_timer", said),
        }
    }

    /// Sets the settings of a closed device: its weight, the deferral of its interrupt, and busy polling. Fails with
    /// [`NOT_ALLOWED`](Fault::NOT_ALLOWED) if it isn't closed, with [`BAD_WEIGHT`](Fault::BAD_WEIGHT) if its weight is above the
    /// driver's, with [`BAD_SETTING`](Fault::BAD_SETTING) for `defer_hard_irqs` without `gro_flush_timeout`, and with
    /// [`BAD_DEVICE`](Fault::BAD_DEVICE).
    pub fn set(&mut self, device: u32, settings: DeviceSettings) -> Result<(), Fault> {
        let raw = sys::fq_device_settings {
            weight: settings.weight.get() as u32,
            defer_hard_irqs: settings.defer_hard_irqs,
            gro_flush_timeout: settings.gro_flush_timeout,
            empty_polls: settings.empty_polls,
            ..sys::fq_device_settings::INIT
        };
        Fault::unless_made(calls::driver_set_sized(self.at.raw(), device, &raw))
    }

    /// Ends the run in progress, by a clock of the caller (`netdev_budget_usecs`): a fetch that is due already is still made, and
    /// then the run has ended and is squeezed. Fails with [`NOT_DUE`](Fault::NOT_DUE) if no run is in progress.
    pub fn end_run(&mut self) -> Result<(), Fault> {
        Fault::unless_made(calls::driver_end_run(self.at.raw()))
    }

    /// Returns what has to be done now. An action that isn't reported is returned again.
    pub fn next(&mut self) -> Todo {
        let raw = set_by("driver_next", Todo::NONE.raw, |raw| {
            calls::driver_next(self.at.raw(), raw)
        });
        Todo { raw }
    }

    /// Reports that an action was done, with the packets of a look or a fetch. Nothing is reported if it fails: with
    /// [`NOT_DUE`](Fault::NOT_DUE) if the driver doesn't wait for this report any more, because of an interrupt, an open, a
    /// stop or an earlier report; with [`BAD_WORK`](Fault::BAD_WORK) if a fetch took too many packets.
    pub fn done(&mut self, todo: Todo, packets: u32) -> Result<(), Fault> {
        let raw = sys::fq_todo {
            packets,
            ..todo.raw
        };
        Fault::unless_made(calls::driver_done(self.at.raw(), &raw))
    }

    /// Like [`turn`](Driver::turn), without interrupts; to mask a card is always an action of its own.
    pub fn step(&mut self, todo: &mut Todo) -> Result<What, Fault> {
        let said = calls::driver_step(self.at.raw(), &mut todo.raw);
        Fault::unless_made(said).map(|()| todo.what())
    }

    /// Does one action at a card, reports it, and returns it; returns [`What::Sleep`] if there is nothing to do,
    /// [`What::Ended`] if a run ended. If a call of the card panics, nothing is reported, and the same action is due again. Fails
    /// with [`BAD_WORK`](Fault::BAD_WORK) if a fetch returned too many packets.
    pub fn act<C: Cards>(&mut self, cards: &mut C) -> Result<What, Fault> {
        let mut todo = self.next();
        let what = todo.what();
        let packets = match what {
            What::Sleep | What::Ended(_) => return Ok(what),
            What::Mask(device) => {
                cards.mask(device);
                0
            }
            What::Unmask(device) => {
                cards.unmask(device);
                0
            }
            What::Look(device) => u32::from(cards.look(device)),
            What::Timer {
                device,
                nanoseconds,
            } => {
                cards.timer(device, nanoseconds);
                0
            }
            What::Fetch { device, most, mask } => {
                if mask {
                    cards.mask(device);
                }
                let taken = cards.fetch(device, most);
                if let Some(has_more) = (taken < most).then(|| cards.rearm(device)).flatten() {
                    todo.set_rearmed(has_more);
                }
                taken
            }
        };
        match self.done(todo, packets) {
            Err(Fault::BAD_WORK) => Err(Fault::BAD_WORK),
            _ => Ok(what),
        }
    }

    /// Returns the state of a device, and the counts of its polls. Fails with [`BAD_DEVICE`](Fault::BAD_DEVICE).
    pub fn shown(&self, device: u32) -> Result<DeviceShown, Fault> {
        let mut shown = sys::fq_device_shown::INIT;
        let said = calls::driver_show_sized(&self.at.0, device, &mut shown);
        Fault::unless_made(said)?;
        Ok(DeviceShown {
            state: match shown.state {
                sys::FQ_DEVICE_CLOSED => DeviceState::Closed,
                sys::FQ_DEVICE_OPEN => DeviceState::Open,
                sys::FQ_DEVICE_STOPPING => DeviceState::Stopping,
                state => unexpected("driver_show", state),
            },
            scheduled: shown.scheduled,
            missed: shown.missed,
            polls: shown.polls,
            packets: shown.packets,
        })
    }
}
