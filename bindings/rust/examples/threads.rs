//! An interrupt thread and a poller thread share an instance: 200000 packets, or as many as the first argument says, and each
//! is polled once and in order.
use fintaqush::{Batch, Caller, Control, End, Input, Kind, Marked, Off, Packet, Polling};
use fintaqush::{Shared, TryTake, Weight};
use std::error::Error;
use std::{env, thread};

const BYTES: u32 = 60;

fn interrupt(packets: u64, mut input: Input, mut caller: Caller) {
    for number in 0..packets {
        let packet = Packet {
            number,
            bytes: BYTES,
        };
        while input.put(packet).is_err() {
            thread::yield_now();
        }
        caller.interrupt(Kind::List);
    }
}

// Ends a poll of an instance that was taken from the list, so `Held` isn't possible.
fn end_poll(polling: Polling, gave: usize) -> Caller {
    match polling.end(gave == Weight::MAX.get()) {
        End::Over(caller, _) => caller,
        End::Held(_) => unreachable!("it isn't the instance's thread"),
    }
}

// Polls all packets, and returns whether each arrived once and in order.
fn poll_all(packets: u64, mut caller: Caller) -> (bool, Caller) {
    let mut batch = Batch::new();
    let mut next = 0;
    while next < packets {
        match caller.take(Kind::List) {
            Ok(mut polling) => {
                let given = polling.poll(Weight::MAX, &mut batch);
                caller = end_poll(polling, given.len());
                for packet in given {
                    if (packet.number, packet.bytes) != (next, BYTES) {
                        return (false, caller);
                    }
                    next += 1;
                }
            }
            Err(resting) => {
                caller = resting;
                thread::yield_now();
            }
        }
    }
    (true, caller)
}

// Disables the instance. If it is on the list when the disable is requested, the poller takes and completes it.
fn disable(mut marked: Control<Marked>, mut poller: Caller) -> Control<Off> {
    loop {
        marked = match marked.try_take() {
            TryTake::Taken(off) => return off,
            TryTake::Busy(marked) | TryTake::Changed(marked) => marked,
        };
        poller = match poller.take(Kind::List) {
            Ok(polling) => end_poll(polling, 0),
            Err(poller) => poller,
        };
    }
}

fn main() -> Result<(), Box<dyn Error>> {
    let packets = match env::args().nth(1) {
        Some(word) => word.parse()?,
        None => 200_000,
    };
    let Shared {
        input,
        control,
        callers: [interrupts, poller],
    } = Shared::new(256)?;
    let on = control.enable(false);
    let card = thread::spawn(move || interrupt(packets, input, interrupts));
    let polls = thread::spawn(move || poll_all(packets, poller));
    let (good, poller) = polls.join().map_err(|_| "the poller panicked")?;
    if !good {
        return Err("a packet was lost, doubled or out of order".into());
    }
    card.join().map_err(|_| "the interrupt thread panicked")?;
    drop(disable(on.mark(), poller));
    println!("{packets} packets, each once and in order");
    Ok(())
}
