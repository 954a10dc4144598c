//! Objects of the library on the heap.
use crate::calls;
use crate::fault::set_by;
use crate::packets::{Answers, Counts, RingShown};
use crate::sys;

// A kind of objects, by its handle in C.
pub(crate) trait Object {
    // A handle without an object.
    const UNSET: Self;
    // What handles of all kinds have.
    fn handle(&self) -> &sys::fq_handle;
    fn handle_mut(&mut self) -> &mut sys::fq_handle;
}

macro_rules! objects {
    ($($kind:ident)*) => {$(
        impl Object for sys::$kind {
            const UNSET: Self = sys::$kind {
                handle: sys::fq_handle {
                    private_set: false,
                    private_at: std::ptr::null_mut(),
                },
            };
            fn handle(&self) -> &sys::fq_handle {
                &self.handle
            }
            fn handle_mut(&mut self) -> &mut sys::fq_handle {
                &mut self.handle
            }
        }
    )*};
}
objects! { fq_ring fq_tx fq_caller fq_control fq_list fq_driver }

// Owns an object of the library; its drop abandons the object.
#[derive(Debug)]
pub(crate) struct Handle<O: Object>(pub(crate) O);

// SAFETY: a handle may move from thread to thread if one call is ordered before the next. Safe Rust orders a move between
// threads by a release and its acquire; on x86-64 and arm64, the platforms of the library, these order its accesses as a lock or
// a thread's start and join do.
unsafe impl<O: Object> Send for Handle<O> {}

impl Handle<sys::fq_caller> {
    // Reads the state word, for a caller.
    pub(crate) fn look(&self) -> u64 {
        set_by("caller_look", 0, |word| {
            calls::caller_look(&self.0, word)
        })
    }

    // The counts of the results of a caller's calls.
    pub(crate) fn answers(&self) -> Answers {
        set_by("caller_count", Answers::INIT, |answers| {
            calls::caller_count_sized(&self.0, answers)
        })
    }
}

impl Handle<sys::fq_ring> {
    // The state of the input of a ring.
    pub(crate) fn shown(&self) -> RingShown {
        set_by("ring_show", RingShown::INIT, |shown| {
            calls::ring_show_sized(&self.0, shown)
        })
    }
}

impl<O: Object> Handle<O> {
    // A handle without an object.
    pub(crate) const NONE: Handle<O> = Handle(O::UNSET);

    // The counts of a ring's polls, for an object that has its poll end.
    pub(crate) fn counts(&self) -> Counts {
        set_by("count", Counts::INIT, |counts| {
            calls::count_sized(self.0.handle(), counts)
        })
    }

    // Returns the handle for a call.
    pub(crate) fn raw(&mut self) -> &mut O {
        &mut self.0
    }
}

impl<O: Object> Drop for Handle<O> {
    fn drop(&mut self) {
        if self.0.handle().private_set {
            calls::abandon(self.0.handle_mut());
        }
    }
}
