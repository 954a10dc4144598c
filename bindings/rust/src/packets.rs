//! Packets, and the arguments and results of polls.
use crate::fault::{unexpected, Fault};
use crate::sys;
use std::fmt;

/// The counts of the results of a caller's calls.
pub use crate::sys::fq_answers as Answers;
/// The counts of a ring's polls.
pub use crate::sys::fq_counts as Counts;
/// A packet: a number that the user chooses, for example the index of a buffer, and its size in bytes.
pub use crate::sys::fq_packet as Packet;
pub use crate::sys::fq_ring_shown as RingShown;
pub use crate::sys::fq_totals as Totals;

/// The most packets that one poll processes, 1 to 64.
#[derive(Clone, Copy, Debug, PartialEq, Eq, PartialOrd, Ord)]
pub struct Weight(usize);

impl Weight {
    /// The greatest weight, 64, which is the kernel's default (`NAPI_POLL_WEIGHT`).
    pub const MAX: Weight = Weight(64);

    /// Returns the weight of a number from 1 to 64. Otherwise it fails with [`BAD_WEIGHT`](Fault::BAD_WEIGHT).
    pub fn new(packets: usize) -> Result<Weight, Fault> {
        match packets {
            1..=64 => Ok(Weight(packets)),
            _ => Err(Fault::BAD_WEIGHT),
        }
    }

    /// Returns the number.
    pub fn get(self) -> usize {
        self.0
    }
}

impl Default for Weight {
    fn default() -> Weight {
        Weight::MAX
    }
}

/// A buffer for the packets of one poll.
#[derive(Clone)]
pub struct Batch {
    packets: [Packet; 64],
    count: usize,
}

impl Batch {
    /// Returns an empty buffer.
    pub fn new() -> Batch {
        Batch {
            packets: [Packet::default(); 64],
            count: 0,
        }
    }

    /// Returns the packets of the last poll into this buffer.
    pub fn as_slice(&self) -> &[Packet] {
        &self.packets[..self.count]
    }

    // Lets a poll write at most 64 packets to the buffer, and their count.
    pub(crate) fn filled_by<F>(&mut self, poll: F) -> &[Packet]
    where
        F: FnOnce(&mut [Packet], &mut usize) -> u32,
    {
        match poll(&mut self.packets, &mut self.count) {
            sys::FQ_OK => self.as_slice(),
            said => unexpected("poll", said),
        }
    }
}

impl Default for Batch {
    fn default() -> Batch {
        Batch::new()
    }
}

impl fmt::Debug for Batch {
    fn fmt(&self, f: &mut fmt::Formatter<'_>) -> fmt::Result {
        f.debug_list().entries(self.as_slice()).finish()
    }
}
