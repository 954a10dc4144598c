//! Rings of places: packets of any type, which are written and read where they are.
use crate::calls;
use crate::fault::{unexpected, Fault};
use crate::handle::Handle;
use crate::sys;
use std::cell::UnsafeCell;
use std::sync::Arc;

// An end of a ring of places, and the elements.
struct End<T> {
    at: Handle<sys::fq_ring>,
    elements: Arc<[UnsafeCell<T>]>,
}

// SAFETY: both ends have the elements, but each element belongs to one end at a time, or to none, and what one end wrote to it is
// visible to the other end once that one owns it.
unsafe impl<T: Send> Send for End<T> {}

type Call = fn(&mut sys::fq_ring, usize, usize, &mut usize, &mut usize) -> u32;

impl<T> End<T> {
    // Makes this call, and returns the elements that the end then owns.
    fn next(&mut self, call: Call, done: usize, want: usize) -> Result<&mut [T], Fault> {
        let (mut first, mut count) = (0, 0);
        match call(self.at.raw(), done, want, &mut first, &mut count) {
            said @ (sys::FQ_OK | sys::FQ_NOT_ALLOWED) => Fault::unless_made(said)?,
            said => unexpected("ring_claim or fq_ring_peek", said),
        }
        let owned = &self.elements[first..first + count];
        // SAFETY: no other end owns these elements until this end's next call, which borrows it again.
        Ok(unsafe { std::slice::from_raw_parts_mut(UnsafeCell::raw_get(owned.as_ptr()), count) })
    }
}

/// Makes a ring of places over these elements, 1 to 65536, and returns its two ends, each for a thread of its own. Packets aren't
/// copied: the input end writes an element, and the output end reads it there. Fails with
/// [`BAD_CAPACITY`](Fault::BAD_CAPACITY) or [`OUT_OF_MEMORY`](Fault::OUT_OF_MEMORY).
///
/// ```
/// use fintaqush::{place_ring, Fault};
///
/// # fn main() -> Result<(), Fault> {
/// let (mut input, mut output) = place_ring(vec![0; 256])?;
/// input.claim(0, 3)?.copy_from_slice(&[7, 8, 9]);
/// input.claim(3, 0)?;
/// assert_eq!(output.peek(0, 2)?, [7, 8]);
/// assert_eq!(output.peek(2, 64)?, [9]);
/// assert_eq!(input.claim(1, 0), Err(Fault::NOT_ALLOWED));
/// # Ok(())
/// # }
/// ```
pub fn place_ring<T>(elements: Vec<T>) -> Result<(PlaceIn<T>, PlaceOut<T>), Fault> {
    let (mut first, mut second) = (Handle::NONE, Handle::NONE);
    Fault::unless_made(calls::ring_places(
        first.raw(),
        second.raw(),
        elements.len(),
    ))?;
    let elements: Arc<[UnsafeCell<T>]> = elements.into_iter().map(UnsafeCell::new).collect();
    let input = PlaceIn(End {
        at: first,
        elements: Arc::clone(&elements),
    });
    let output = PlaceOut(End {
        at: second,
        elements,
    });
    Ok((input, output))
}

/// The input end of a ring of places, which publishes packets.
pub struct PlaceIn<T>(End<T>);

impl<T> PlaceIn<T> {
    /// Publishes the packets in the first `publish` of the elements that were claimed last, and claims up to `want` elements, at most
    /// 64. There are fewer at the end of the elements, or if the ring is full. Fails with [`NOT_ALLOWED`](Fault::NOT_ALLOWED), and
    /// nothing changes, if fewer than `publish` were claimed.
    pub fn claim(&mut self, publish: usize, want: usize) -> Result<&mut [T], Fault> {
        self.0.next(calls::ring_claim, publish, want)
    }
}

/// The output end of a ring of places, which takes packets.
pub struct PlaceOut<T>(End<T>);

impl<T> PlaceOut<T> {
    /// Releases the first `release` of the elements that were peeked at last, and peeks at up to `want` published packets, at most 64, the
    /// oldest ones. There are fewer at the end of the elements, or if no more were published. Fails with
    /// [`NOT_ALLOWED`](Fault::NOT_ALLOWED), and nothing changes, if fewer than `release` were peeked at.
    pub fn peek(&mut self, release: usize, want: usize) -> Result<&mut [T], Fault> {
        self.0.next(calls::ring_peek, release, want)
    }
}
