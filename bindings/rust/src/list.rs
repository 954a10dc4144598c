//! Poll lists, and runs over them.
use crate::calls;
use crate::fault::{set_by, unexpected, Fault};
use crate::handle::Handle;
use crate::packets::Weight;
use crate::sys;
use crate::words::Next;

/// The report of a run: its polls, their packets, and whether the budget or the window was used up.
pub use crate::sys::fq_run_report as RunReport;

/// The outcome of one poll of a run.
#[derive(Clone, Copy, Debug, PartialEq, Eq)]
pub struct Polled {
    /// The packets that it processed, at most the weight.
    pub work: u32,
    /// How it ended.
    pub next: Next,
}

/// A poll list of one thread: numbers of devices, which runs of the softirq poll in order.
#[derive(Debug)]
pub struct List {
    at: Handle<sys::fq_list>,
}

impl List {
    /// Returns an empty list. Fails with [`OUT_OF_MEMORY`](Fault::OUT_OF_MEMORY).
    pub fn new() -> Result<List, Fault> {
        let mut at = Handle::NONE;
        Fault::unless_made(calls::list_new(at.raw()))?;
        Ok(List { at })
    }

    /// Appends a number to the list. Fails with [`IN_USE`](Fault::IN_USE) if it is in the list already, with
    /// [`FULL`](Fault::FULL) if list and run hold 64.
    pub fn push(&mut self, id: u32) -> Result<(), Fault> {
        Fault::unless_made(calls::list_push(self.at.raw(), id))
    }

    /// Removes a number from the list; the others keep their order. Fails with [`BUSY`](Fault::BUSY) if only the run over the list
    /// has it, which polls it, will poll it, or lists it at its end; with [`NOT_THERE`](Fault::NOT_THERE) if neither of them has it.
    pub fn remove(&mut self, id: u32) -> Result<(), Fault> {
        Fault::unless_made(calls::list_remove(self.at.raw(), id))
    }

    /// Returns how many numbers the list holds, including those of a run over it.
    pub fn len(&self) -> usize {
        set_by("list_len", 0, |len| calls::list_len(&self.at.0, len)) as usize
    }

    /// Returns whether the list is empty.
    pub fn is_empty(&self) -> bool {
        self.len() == 0
    }

    /// Makes a run (`net_rx_action`): polls the listed devices in order, until the list is empty, or the budget (packets) or
    /// the window (polls) is used up. Fails with [`BAD_BUDGET`](Fault::BAD_BUDGET) unless both are 1 to 65535.
    ///
    /// `poll` polls the device with that number, and may list others. The run ends with [`BAD_WORK`](Fault::BAD_WORK) if it
    /// returns more packets than the weight, and with [`IN_USE`](Fault::IN_USE) if it asks to be listed again although it has
    /// listed itself. If it panics, the run ends too: that device isn't listed again, all others are.
    pub fn run<F>(
        &mut self,
        budget: u32,
        weight: Weight,
        window: u32,
        mut poll: F,
    ) -> Result<RunReport, Fault>
    where
        F: FnMut(&mut Pushes<'_>, u32) -> Polled,
    {
        let mut run = Run::begin(self, budget, weight, window)?;
        while let Some(id) = run.next() {
            let polled = poll(&mut Pushes { list: run.list }, id);
            run.polled(polled)?;
        }
        run.end()
    }
}

/// A list during a run, to which a poll may push, and from which it may remove.
#[derive(Debug)]
pub struct Pushes<'l> {
    list: &'l mut List,
}

impl Pushes<'_> {
    /// Like [`List::push`].
    pub fn push(&mut self, id: u32) -> Result<(), Fault> {
        self.list.push(id)
    }

    /// Like [`List::remove`].
    pub fn remove(&mut self, id: u32) -> Result<(), Fault> {
        self.list.remove(id)
    }
}

// A run in progress; its drop ends it.
struct Run<'l> {
    list: &'l mut List,
}

impl<'l> Run<'l> {
    fn begin(list: &'l mut List, budget: u32, weight: Weight, window: u32) -> Result<Self, Fault> {
        let weight = weight.get() as u32;
        let said = calls::run_begin(list.at.raw(), budget, weight, window);
        Fault::unless_made(said)?;
        Ok(Run { list })
    }

    fn next(&mut self) -> Option<u32> {
        let mut id = 0;
        match calls::run_next(self.list.at.raw(), &mut id) {
            sys::FQ_OK => Some(id),
            sys::FQ_DONE => None,
            said => unexpected("run_next", said),
        }
    }

    fn polled(&mut self, polled: Polled) -> Result<(), Fault> {
        let Polled { work, next } = polled;
        let said = calls::run_polled(self.list.at.raw(), work, next.number());
        Fault::unless_made(said)
    }

    fn end(&mut self) -> Result<RunReport, Fault> {
        let mut report = RunReport::INIT;
        let said = calls::run_end_sized(self.list.at.raw(), &mut report);
        Fault::unless_made(said)?;
        Ok(report)
    }
}

impl Drop for Run<'_> {
    // each call fails, and changes nothing, if there is nothing left to end
    fn drop(&mut self) {
        let _ = self.polled(Polled {
            work: 0,
            next: Next::Absent,
        });
        let _ = self.end();
    }
}
