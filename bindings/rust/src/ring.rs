//! Receive rings.
use crate::calls;
use crate::fault::{set_by, unexpected, Fault};
use crate::handle::Handle;
use crate::packets::{Batch, Counts, Packet, RingShown, Totals, Weight};
use crate::sys;

/// A receive ring without an instance. Packets that are in it when it is dropped are lost.
///
/// ```
/// use fintaqush::{Batch, Fault, Packet, Ring, Weight};
///
/// # fn main() -> Result<(), Fault> {
/// let mut ring = Ring::new(2)?;
/// ring.put(Packet { number: 7, bytes: 60 })?;
/// ring.put(Packet { number: 8, bytes: 1500 })?;
/// assert_eq!(ring.put(Packet { number: 9, bytes: 60 }), Err(Fault::FULL));
///
/// let mut batch = Batch::new();
/// assert_eq!(ring.poll(Weight::new(1)?, &mut batch), [Packet { number: 7, bytes: 60 }]);
/// assert_eq!(ring.poll(Weight::MAX, &mut batch), [Packet { number: 8, bytes: 1500 }]);
/// # Ok(())
/// # }
/// ```
#[derive(Debug)]
pub struct Ring {
    pub(crate) at: Handle<sys::fq_ring>,
}

impl Ring {
    /// Returns a ring with a capacity of 1 to 65536. Fails with [`BAD_CAPACITY`](Fault::BAD_CAPACITY) or
    /// [`OUT_OF_MEMORY`](Fault::OUT_OF_MEMORY).
    pub fn new(capacity: usize) -> Result<Ring, Fault> {
        let mut at = Handle::NONE;
        Fault::unless_made(calls::ring_new(at.raw(), capacity))?;
        Ok(Ring { at })
    }

    /// Puts a packet at the end of the ring. Fails with [`FULL`](Fault::FULL).
    pub fn put(&mut self, packet: Packet) -> Result<(), Fault> {
        put(&mut self.at, packet)
    }

    /// Puts as many of the first packets as fit at the end of the ring, and returns how many.
    ///
    /// ```
    /// use fintaqush::{Fault, Packet, Ring};
    ///
    /// # fn main() -> Result<(), Fault> {
    /// let mut ring = Ring::new(2)?;
    /// let burst = [7, 8, 9].map(|number| Packet { number, bytes: 60 });
    /// assert_eq!(ring.put_all(&burst), 2);
    /// assert_eq!(ring.put_all(&burst[2..]), 0);
    /// assert_eq!(ring.put_all(&[]), 0);
    /// # Ok(())
    /// # }
    /// ```
    pub fn put_all(&mut self, packets: &[Packet]) -> usize {
        put_all(&mut self.at, packets)
    }

    /// Takes the first packets out, at most the weight.
    pub fn poll<'b>(&mut self, weight: Weight, batch: &'b mut Batch) -> &'b [Packet] {
        poll(&mut self.at, weight, batch)
    }

    /// Returns its capacity, and how many packets were put.
    pub fn shown(&self) -> RingShown {
        self.at.shown()
    }

    /// The counts of the ring's polls.
    pub fn counts(&self) -> Counts {
        self.at.counts()
    }

    /// Returns its two ends, each for a thread of its own. Fails with [`OUT_OF_MEMORY`](Fault::OUT_OF_MEMORY).
    ///
    /// ```
    /// use fintaqush::{Batch, Fault, Packet, Ring, Weight};
    ///
    /// # fn main() -> Result<(), Fault> {
    /// let (mut input, mut output) = Ring::new(2)?.split()?;
    /// input.put(Packet { number: 7, bytes: 60 })?;
    /// let mut batch = Batch::new();
    /// assert_eq!(output.poll(Weight::MAX, &mut batch).len(), 1);
    /// assert_eq!(output.counts().bytes, 60);
    /// # Ok(())
    /// # }
    /// ```
    pub fn split(mut self) -> Result<(Input, Output), Fault> {
        let mut out = Handle::NONE;
        Fault::unless_made(calls::ring_split(self.at.raw(), out.raw()))?;
        Ok((Input { at: self.at }, Output { at: out }))
    }

    /// Finishes the ring, and returns its totals.
    pub fn finish(mut self) -> Totals {
        set_by("ring_finish", Totals::INIT, |totals| {
            calls::ring_finish_sized(self.at.raw(), totals)
        })
    }
}

/// The consumer's end of a ring that was split.
#[derive(Debug)]
pub struct Output {
    at: Handle<sys::fq_ring>,
}

impl Output {
    /// Takes the first packets out, at most the weight.
    pub fn poll<'b>(&mut self, weight: Weight, batch: &'b mut Batch) -> &'b [Packet] {
        poll(&mut self.at, weight, batch)
    }

    /// The counts of the ring's polls.
    pub fn counts(&self) -> Counts {
        self.at.counts()
    }
}

/// The producer's end of a ring that belongs to an instance or that was split.
#[derive(Debug)]
pub struct Input {
    pub(crate) at: Handle<sys::fq_ring>,
}

impl Input {
    /// Returns its capacity, and how many packets were put.
    pub fn shown(&self) -> RingShown {
        self.at.shown()
    }

    /// Puts a packet at the end of the ring. Fails with [`FULL`](Fault::FULL).
    ///
    /// What this thread wrote before the put is visible to the thread whose poll returns the packet. What was done before a
    /// poll is visible after a put into a slot that the poll freed.
    pub fn put(&mut self, packet: Packet) -> Result<(), Fault> {
        put(&mut self.at, packet)
    }

    /// Puts as many of the first packets as fit at the end of the ring, and returns how many. A poll sees all of them at once.
    /// What each thread then sees is as for [`put`](Input::put).
    pub fn put_all(&mut self, packets: &[Packet]) -> usize {
        put_all(&mut self.at, packets)
    }
}

fn poll<'b>(ring: &mut Handle<sys::fq_ring>, weight: Weight, batch: &'b mut Batch) -> &'b [Packet] {
    let at = ring.raw();
    batch.filled_by(|out, count| calls::ring_poll(at, weight.get(), out, count))
}

fn put(ring: &mut Handle<sys::fq_ring>, packet: Packet) -> Result<(), Fault> {
    match calls::ring_put(ring.raw(), packet.number, packet.bytes) {
        said @ (sys::FQ_OK | sys::FQ_FULL) => Fault::unless_made(said),
        said => unexpected("ring_put", said),
    }
}

fn put_all(ring: &mut Handle<sys::fq_ring>, packets: &[Packet]) -> usize {
    let mut count = 0;
    match calls::ring_put_all(ring.raw(), packets, &mut count) {
        sys::FQ_OK | sys::FQ_FULL => count,
        said => unexpected("ring_put_all", said),
    }
}
