//! A queue limit: frames of 1500 bytes are sent to a card while the limit allows it, and every six milliseconds the card
//! completes all of them. The limit grows, because the card ran out of work each time.
use fintaqush::{Dql, Fault};

const FRAME: u32 = 1500;

fn main() -> Result<(), Fault> {
    let mut limit = Dql::new(0, 1879048192, 1000, 0)?;
    for now in [6, 12, 18] {
        let mut frames = 0;
        while limit.avail() >= 0 {
            limit.queued(FRAME)?;
            frames += 1;
        }
        let in_flight = limit.in_flight();
        limit.completed(in_flight, now)?;
        println!("{frames} frames, {in_flight} bytes in flight, then a limit of {}", limit.limit());
    }
    Ok(())
}
