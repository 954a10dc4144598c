//! Tests of the safe calls, on cases worked by hand: what each kind of value does, and which calls fail.
use fintaqush::sys::{FQ_BIT_DISABLE, FQ_BIT_NPSVC, FQ_BIT_QUEUED, FQ_BIT_SCHED, FQ_BIT_THREADED};
use fintaqush::*;
use std::fmt::Write;
use std::panic::{catch_unwind, AssertUnwindSafe};

const INTERRUPT: u32 = 0;
const POLLER: u32 = 1;
const CONTROLLER: u32 = 2;

fn packet(number: u64) -> Packet {
    Packet { number, bytes: 60 }
}

fn numbers(packets: &[Packet]) -> Vec<u64> {
    packets.iter().map(|packet| packet.number).collect()
}

// Returns an enabled instance with two callers.
fn enabled(capacity: usize) -> (Input, Control<On>, Caller, Caller) {
    let Shared {
        input,
        control,
        callers: [interrupts, poller],
    } = Shared::new(capacity).unwrap();
    (input, control.enable(false), interrupts, poller)
}

fn take(poller: Caller) -> Polling {
    poller.take(Kind::List).expect("it is on the list")
}

// ---- queue limits

#[test]
fn a_limit_grows_while_the_card_runs_out_of_work() {
    let mut limit = Dql::new(0, 1_879_048_192, 1000, 0).unwrap();
    let mut told = String::new();
    for now in [6, 12, 18] {
        let mut frames = 0;
        while limit.avail() >= 0 {
            limit.queued(1500).unwrap();
            frames += 1;
        }
        let in_flight = limit.in_flight();
        limit.completed(in_flight, now).unwrap();
        let grown = limit.limit();
        writeln!(
            told,
            "{frames} frames, {in_flight} bytes in flight, then a limit of {grown}"
        )
        .unwrap();
    }
    assert_eq!(told, include_str!("../../../examples/c/limit.stdout"));
}

#[test]
fn a_limit_refuses_and_stays() {
    assert_eq!(Dql::new(2, 1, 0, 0).unwrap_err(), Fault::BAD_BOUNDS);
    assert_eq!(
        Dql::new(0, 1_879_048_193, 0, 0).unwrap_err(),
        Fault::BAD_BOUNDS
    );
    let mut limit = Dql::new(0, 1000, 0, 0).unwrap();
    assert_eq!(limit.queued(268_435_456), Err(Fault::TOO_LARGE));
    for _ in 0..4 {
        limit.queued(268_435_455).unwrap();
    }
    // 1073741823 bytes may be in flight: three more than the four objects so far
    limit.queued(3).unwrap();
    assert_eq!(limit.queued(1), Err(Fault::TOO_MUCH_IN_FLIGHT));
    assert_eq!(
        limit.completed(1_073_741_824, 1),
        Err(Fault::MORE_THAN_QUEUED)
    );
    assert_eq!(limit.in_flight(), 1_073_741_823);
    limit.reset(2);
    assert_eq!((limit.in_flight(), limit.limit()), (0, 0));
}

// ---- transmit rings

#[test]
fn a_transmit_ring_is_stopped_by_its_limit_and_started_again() {
    let mut ring = TxRing::new(2, 1000, 1000, 1000, 0).unwrap();
    ring.send(600).unwrap();
    assert_eq!((ring.state().avail, ring.state().stopped), (400, false));
    ring.send(600).unwrap();
    let over = TxState {
        queued: 1200,
        completed: 0,
        limit: 1000,
        avail: -200,
        stopped: true,
        ..TxState::INIT
    };
    assert_eq!(ring.state(), over);
    assert_eq!(ring.send(1), Err(Fault::STOPPED));
    assert_eq!(ring.done(3, 1), Err(Fault::MORE_THAN_SENT));
    assert_eq!(ring.state(), over);
    ring.done(1, 1).unwrap();
    assert_eq!((ring.state().avail, ring.state().stopped), (400, false));
    ring.send(100).unwrap();
    assert_eq!(ring.send(100), Err(Fault::FULL));
    ring.done(2, 2).unwrap();
    assert_eq!(ring.send(268_435_456), Err(Fault::TOO_LARGE));
    assert_eq!((ring.state().queued, ring.state().completed), (1300, 1300));
}

#[test]
fn a_transmit_ring_out_of_range_is_refused() {
    let made = |capacity, min, max| TxRing::new(capacity, min, max, 0, 0).map(drop);
    assert_eq!(made(0, 0, 1), Err(Fault::BAD_CAPACITY));
    assert_eq!(made(65537, 0, 1), Err(Fault::BAD_CAPACITY));
    assert_eq!(made(1, 2, 1), Err(Fault::BAD_BOUNDS));
    assert_eq!(made(1, 0, 1_879_048_193), Err(Fault::BAD_BOUNDS));
    assert_eq!(made(65536, 0, 1_879_048_192), Ok(()));
}

// ---- instances of one thread

#[test]
fn a_request_that_is_missed_brings_one_more_poll() {
    let mut napi = SerialNapi::new(CONTROLLER);
    assert_eq!(napi.word(), FQ_BIT_SCHED | FQ_BIT_NPSVC);
    napi.enable(CONTROLLER, true).unwrap();
    assert_eq!(napi.word(), FQ_BIT_THREADED);
    napi.set_threaded(POLLER, false);
    assert_eq!(napi.schedule(INTERRUPT), Prep::Granted);
    napi.hand(INTERRUPT, Kind::List).unwrap();
    assert_eq!(napi.word(), FQ_BIT_SCHED | FQ_BIT_QUEUED);
    assert_eq!(napi.schedule(INTERRUPT), Prep::Missed);
    assert!(!napi.take(POLLER, Kind::Thread));
    assert!(napi.take(POLLER, Kind::List));
    assert_eq!(napi.complete(POLLER), Ok(Done::Again));
    napi.hand(POLLER, Kind::List).unwrap();
    assert!(napi.take(POLLER, Kind::List));
    assert_eq!(napi.complete(POLLER), Ok(Done::Released));
    assert_eq!(napi.word(), 0);
}

#[test]
fn calls_out_of_turn_are_refused() {
    let mut napi = SerialNapi::new(CONTROLLER);
    assert_eq!(napi.enable(POLLER, false), Err(Fault::NOT_ALLOWED));
    assert_eq!(napi.mark_disable(CONTROLLER), Err(Fault::NOT_ALLOWED));
    napi.enable(CONTROLLER, false).unwrap();
    assert_eq!(napi.hand(INTERRUPT, Kind::List), Err(Fault::NOT_ALLOWED));
    assert_eq!(napi.complete(POLLER), Err(Fault::NOT_ALLOWED));
    assert_eq!(napi.busy_stop(POLLER), Err(Fault::NOT_ALLOWED));
    assert_eq!(napi.take_disable(POLLER), Err(Fault::NOT_ALLOWED));
    assert_eq!(napi.word(), 0);
}

#[test]
fn a_disable_waits_for_a_busy_poller() {
    let mut napi = SerialNapi::new(CONTROLLER);
    napi.enable(CONTROLLER, false).unwrap();
    assert!(napi.busy_take(POLLER));
    assert!(!napi.busy_take(INTERRUPT));
    assert_eq!(napi.complete(POLLER), Ok(Done::Held));
    napi.mark_disable(CONTROLLER).unwrap();
    assert_eq!(napi.schedule(INTERRUPT), Prep::Disabled);
    assert_eq!(napi.take_disable(CONTROLLER), Ok(false));
    napi.busy_stop(POLLER).unwrap();
    assert_eq!(napi.word(), FQ_BIT_SCHED | FQ_BIT_DISABLE);
    assert_eq!(napi.complete(POLLER), Ok(Done::Released));
    assert_eq!(napi.take_disable(CONTROLLER), Ok(true));
    napi.unmark(CONTROLLER).unwrap();
    assert_eq!(napi.word(), FQ_BIT_SCHED | FQ_BIT_NPSVC);
}

// ---- rings and instances that threads share

#[test]
fn sizes_out_of_range_are_refused() {
    assert_eq!(Ring::new(0).unwrap_err(), Fault::BAD_CAPACITY);
    assert_eq!(Ring::new(65537).unwrap_err(), Fault::BAD_CAPACITY);
    assert_eq!(Shared::<2>::new(0).unwrap_err(), Fault::BAD_CAPACITY);
    assert_eq!(Shared::<0>::new(4).unwrap_err(), Fault::BAD_COUNT);
    assert_eq!(Shared::<1>::new(4).unwrap_err(), Fault::BAD_COUNT);
    assert_eq!(Shared::<9>::new(4).unwrap_err(), Fault::BAD_COUNT);
    assert!(Shared::<8>::new(65536).is_ok());
    assert_eq!(Weight::new(0), Err(Fault::BAD_WEIGHT));
    assert_eq!(Weight::new(65), Err(Fault::BAD_WEIGHT));
    assert_eq!(Weight::new(64), Ok(Weight::MAX));
}

#[test]
fn polls_give_the_next_packets_at_most_the_weight() {
    let (mut input, on, mut interrupts, poller) = enabled(100);
    let burst: Vec<_> = (0..102).map(packet).collect();
    assert_eq!(input.put_all(&[]), 0);
    assert_eq!(input.put_all(&burst[..1]), 1);
    assert_eq!(input.put_all(&burst[1..]), 99);
    assert_eq!(input.put_all(&burst[100..]), 0);
    assert_eq!(input.put(packet(100)), Err(Fault::FULL));
    assert_eq!(interrupts.interrupt(Kind::List), Prep::Granted);

    let mut batch = Batch::new();
    let mut polling = take(poller);
    let first = polling.poll(Weight::MAX, &mut batch);
    assert_eq!(numbers(first), (0..64).collect::<Vec<_>>());
    let poller = polling.requeue();
    assert_eq!(interrupts.interrupt(Kind::List), Prep::Missed);

    let mut polling = take(poller);
    let rest = polling.poll(Weight::MAX, &mut batch);
    assert_eq!(numbers(rest), (64..100).collect::<Vec<_>>());
    assert_eq!(batch.as_slice().len(), 36);
    let poller = match polling.complete() {
        Completed::Again(granted) => granted.hand(Kind::List),
        Completed::Released(_) => panic!("a request was missed"),
    };
    let mut polling = take(poller);
    assert!(polling.poll(Weight::MAX, &mut batch).is_empty());
    assert!(matches!(polling.try_complete(), TryDone::Released(_)));
    drop(on.disable());
}

#[test]
fn a_disable_waits_for_the_poller_and_refuses_requests() {
    let (_input, on, interrupts, poller) = enabled(4);
    let granted = match interrupts.schedule() {
        Sched::Granted(granted) => granted,
        other => panic!("{other:?}"),
    };
    let interrupts = granted.hand(Kind::Thread);
    let poller = poller.take(Kind::List).expect_err("its thread has it");
    let marked = on.mark();
    let marked = match marked.try_take() {
        TryTake::Busy(marked) => marked,
        other => panic!("{other:?}"),
    };
    let interrupts = match interrupts.schedule() {
        Sched::Disabled(caller) => caller,
        other => panic!("{other:?}"),
    };
    let polling = poller.take(Kind::Thread).expect("it was handed to it");
    assert!(matches!(polling.complete(), Completed::Released(_)));
    let off = match marked.try_take() {
        TryTake::Taken(off) => off,
        other => panic!("{other:?}"),
    };
    // while the instance is disabled, a request is missed and no poll follows
    assert!(matches!(interrupts.schedule(), Sched::Missed(_)));
    drop(off.enable(false));
}

#[test]
fn what_comes_under_busy_polling_is_polled_behind_the_stop() {
    let (mut input, on, mut interrupts, mut poller) = enabled(4);
    poller.set_threaded(false);
    let mut batch = Batch::new();
    let mut busy = poller.busy().expect("it is idle");
    assert!(busy.poll(Weight::MAX, &mut batch).is_empty());
    busy.complete_held();
    input.put(packet(7)).unwrap();
    assert_eq!(interrupts.interrupt(Kind::List), Prep::Missed);
    let interrupts = match interrupts.try_busy() {
        TryBusy::Refused(caller) => caller,
        other => panic!("{other:?}"),
    };
    let mut polling = busy.stop();
    assert_eq!(numbers(polling.poll(Weight::MAX, &mut batch)), [7]);
    // that poll served the request (busy_poll_stop clears MISSED)
    assert!(matches!(polling.complete(), Completed::Released(_)));
    drop((on.disable(), interrupts));
}

#[test]
fn what_is_dropped_is_given_up() {
    let (mut input, on, mut interrupts, poller) = enabled(4);
    input.put(packet(1)).unwrap();
    assert_eq!(interrupts.interrupt(Kind::List), Prep::Granted);
    drop(take(poller));
    // the instance's poller is gone, so it is never polled again
    assert_eq!(interrupts.interrupt(Kind::List), Prep::Missed);
    assert!(interrupts.take(Kind::List).is_err());
    assert!(matches!(on.mark().try_take(), TryTake::Busy(_)));
}

#[test]
fn values_go_to_threads() {
    fn goes_to_a_thread<T: Send>() {}
    goes_to_a_thread::<Dql>();
    goes_to_a_thread::<SerialNapi>();
    goes_to_a_thread::<Ring>();
    goes_to_a_thread::<List>();
    goes_to_a_thread::<TxRing>();
    goes_to_a_thread::<Shared<2>>();
    goes_to_a_thread::<Granted>();
    goes_to_a_thread::<Polling>();
    goes_to_a_thread::<Busy>();
    goes_to_a_thread::<Control<On>>();
    goes_to_a_thread::<Control<Marked>>();
}

// ---- lists and runs

struct Device {
    napi: SerialNapi,
    // the packets in the card's ring
    left: u32,
}

impl Device {
    fn with(packets: u32) -> Device {
        let mut napi = SerialNapi::new(CONTROLLER);
        napi.enable(CONTROLLER, false).unwrap();
        assert_eq!(napi.schedule(INTERRUPT), Prep::Granted);
        napi.hand(INTERRUPT, Kind::List).unwrap();
        Device {
            napi,
            left: packets,
        }
    }

    fn poll_once(&mut self) -> Polled {
        assert!(self.napi.take(POLLER, Kind::List));
        let work = self.left.min(64);
        self.left -= work;
        let next = if work == 64 {
            self.napi.hand(POLLER, Kind::List).unwrap();
            Next::Repoll
        } else {
            assert_eq!(self.napi.complete(POLLER), Ok(Done::Released));
            Next::Gone
        };
        Polled { work, next }
    }
}

#[test]
fn runs_poll_four_devices_in_turn() {
    let mut devices = [150, 3, 64, 0].map(Device::with);
    let mut list = List::new().unwrap();
    for id in 0..4 {
        list.push(id).unwrap();
    }
    let mut told = String::new();
    loop {
        told += "run:";
        let report = list.run(100, Weight::MAX, 1024, |_, id| {
            let polled = devices[id as usize].poll_once();
            write!(told, " {id}({})", polled.work).unwrap();
            polled
        });
        let RunReport {
            polls,
            work,
            squeezed,
            ..
        } = report.unwrap();
        let squeezed = if squeezed { ", squeezed" } else { "" };
        writeln!(told, " - {polls} polls, {work} packets{squeezed}").unwrap();
        if polls == 0 {
            break;
        }
    }
    assert_eq!(told, include_str!("../../../examples/c/run.stdout"));
}

const GONE: Polled = Polled {
    work: 0,
    next: Next::Gone,
};

// Returns the numbers that the list holds.
fn listed(list: &mut List) -> Vec<u32> {
    let mut ids = Vec::new();
    let report = list.run(1, Weight::MAX, 65535, |_, id| {
        ids.push(id);
        GONE
    });
    assert_eq!(report.unwrap().polls as usize, ids.len());
    ids
}

#[test]
fn a_poll_may_list_others() {
    let mut list = List::new().unwrap();
    list.push(1).unwrap();
    let report = list.run(300, Weight::MAX, 65535, |list, id| {
        if id < 5 {
            list.push(id + 1).unwrap();
        }
        GONE
    });
    assert_eq!(report.unwrap().polls, 5);
}

#[test]
fn what_is_handed_over_again_is_polled_where_it_was_handed_to() {
    let mut list = List::new().unwrap();
    for (kind, polls) in [(Kind::List, 2), (Kind::Thread, 1)] {
        list.push(1).unwrap();
        let mut nexts = [Next::Again(kind), Next::Gone].into_iter();
        let report = list.run(300, Weight::MAX, 65535, |_, _| Polled {
            work: 1,
            next: nexts.next().unwrap(),
        });
        assert_eq!(report.unwrap().polls, polls);
        assert!(listed(&mut list).is_empty());
    }
}

#[test]
fn a_list_holds_64() {
    let mut list = List::new().unwrap();
    for id in 0..64 {
        list.push(id).unwrap();
    }
    assert_eq!(list.push(64), Err(Fault::FULL));
    assert_eq!(list.push(63), Err(Fault::IN_USE));
    assert_eq!(listed(&mut list), (0..64).collect::<Vec<_>>());
}

#[test]
fn a_device_leaves_the_list() {
    let mut list = List::new().unwrap();
    for id in 1..6 {
        list.push(id).unwrap();
    }
    assert_eq!(list.remove(2), Ok(()));
    assert_eq!(list.remove(2), Err(Fault::NOT_THERE));
    let report = list.run(300, Weight::MAX, 1, |list, id| {
        assert_eq!(
            (id, list.remove(1), list.remove(3)),
            (1, Err(Fault::BUSY), Err(Fault::BUSY))
        );
        list.push(6).unwrap();
        assert_eq!(list.remove(6), Ok(()));
        GONE
    });
    assert_eq!(report.unwrap().polls, 1);
    assert_eq!(list.remove(4), Ok(()));
    assert_eq!(listed(&mut list), [3, 5]);
}

#[test]
fn a_run_that_is_refused_leaves_the_list() {
    let mut list = List::new().unwrap();
    list.push(3).unwrap();
    for (budget, window) in [(0, 1), (65536, 1), (1, 0), (1, 65536)] {
        let run = list.run(budget, Weight::MAX, window, |_, _| unreachable!());
        assert_eq!(run, Err(Fault::BAD_BUDGET));
    }
    assert_eq!(listed(&mut list), [3]);
}

#[test]
fn more_work_than_the_weight_ends_the_run() {
    let mut list = List::new().unwrap();
    for id in [1, 2] {
        list.push(id).unwrap();
    }
    let weight = Weight::new(8).unwrap();
    let run = list.run(300, weight, 100, |_, _| Polled {
        work: 9,
        next: Next::Repoll,
    });
    assert_eq!(run, Err(Fault::BAD_WORK));
    assert_eq!(listed(&mut list), [2]);
}

#[test]
fn a_poll_that_panics_ends_the_run() {
    let mut list = List::new().unwrap();
    for id in [1, 2] {
        list.push(id).unwrap();
    }
    let run = AssertUnwindSafe(|| list.run(300, Weight::MAX, 100, |_, _| panic!("a poll")));
    assert!(catch_unwind(run).is_err());
    assert_eq!(listed(&mut list), [2]);
}

// ---- raised replays

const HEAD: &str = "moment,device,event,value\n0,1,open,8\n1,1,rx,60\n1,1,rx,60\n1,1,rx,60\n";
const RUN: &str = "2,0,softirq,0\n";
const LAST: &str = "3,0,softirq,0\n";
const ONE: Settings = Settings {
    budget: 1,
    weight: 1,
    window: 1024,
    ..Settings::INIT
};

// With one packet per run, three runs take a packet each. Each poll was full and a request was missed, so a fourth run polls
// without a packet. The row at 3 ms finds the list empty, and stays.
#[test]
fn runs_that_the_kernel_would_add() {
    let trace = [HEAD, RUN, LAST].concat();
    let all = [HEAD, RUN, RUN, RUN, RUN, LAST].concat();
    let once = [HEAD, RUN, RUN, LAST, LAST].concat();
    for (restarts, wanted) in [
        (None, &all),
        (Some(3), &all),
        (Some(0), &trace),
        (Some(1), &once),
    ] {
        let raised = raise_runs(trace.as_bytes(), &ONE, restarts).unwrap();
        assert_eq!(raised, wanted.as_bytes());
    }
    let default = raise_runs(trace.as_bytes(), &Settings::default(), None).unwrap();
    assert_eq!(default, trace.as_bytes());
}

#[test]
fn every_form_of_a_record_is_raised() {
    let trace = "\u{feff}\"moment\",\"device\",event,value\r\n\r\n\"0\",01,open,8\r1,1,rx,60\n\n1,1,rx,60\n\"2\",0,\"softirq\",\"0";
    let raised = raise_runs(trace.as_bytes(), &ONE, None).unwrap();
    let head = "moment,device,event,value\n0,1,open,8\n1,1,rx,60\n1,1,rx,60\n";
    assert_eq!(raised, [head, RUN, RUN, RUN].concat().into_bytes());
}

// In the given rows the enable row meets a pending disable; with the added runs it doesn't.
#[test]
fn an_enable_row_that_waits_for_added_runs() {
    let head =
        "moment,device,event,value\n0,1,open,8\n0,2,open,8\n0,1,rx,60\n0,2,rx,60\n1,2,disable,0\n";
    let trace = [head, RUN, "3,2,enable,0\n"].concat();
    let pending = |row| Err(NoReport::Trace { fault: 12, row });
    assert_eq!(replay(trace.as_bytes(), &ONE).map(|_| ()), pending(7));
    assert!(replay(&raise_runs(trace.as_bytes(), &ONE, None).unwrap(), &ONE).is_ok());
    assert_eq!(
        raise_runs(trace.as_bytes(), &ONE, Some(0)).map(|_| ()),
        pending(7)
    );
    let none = [head, "3,2,enable,0\n"].concat();
    assert_eq!(
        raise_runs(none.as_bytes(), &ONE, None).map(|_| ()),
        pending(6)
    );
}

#[test]
fn what_cannot_be_raised() {
    let refused = raise_runs(b"", &ONE, None);
    assert_eq!(refused, Err(NoReport::Trace { fault: 1, row: 0 }));
    let settings = Settings { weight: 65, ..ONE };
    assert_eq!(
        raise_runs(b"", &settings, None),
        Err(NoReport::Refused(Fault::BAD_WEIGHT))
    );
    // With one packet per run 49990 packets take 49991 runs, the last one without a packet.
    let mut rows = [
        "moment,device,event,value\n0,1,open,65536\n",
        &"0,1,rx,60\n".repeat(49990),
        RUN,
    ]
    .concat();
    let full = raise_runs(rows.as_bytes(), &ONE, None).unwrap();
    assert_eq!(
        full.iter().filter(|&&byte| byte == b'\n').count(),
        1 + 49991 + 49991
    );
    rows += &["3,1,rx,60\n".repeat(20), LAST.to_string()].concat();
    let more = raise_runs(rows.as_bytes(), &ONE, None);
    assert_eq!(
        more,
        Err(NoReport::Trace {
            fault: 9,
            row: 100001
        })
    );
}

// ---- ends of polls on one thread, requests, opens

#[test]
fn a_granted_instance_is_queued_as_its_word_says() {
    for (threaded, kind) in [(false, Kind::List), (true, Kind::Thread)] {
        let Shared {
            input: _input,
            control,
            callers: [interrupts, poller],
        } = Shared::new(4).unwrap();
        let _on = control.enable(threaded);
        let granted = match interrupts.schedule() {
            Sched::Granted(granted) => granted,
            other => panic!("{other:?}"),
        };
        let (_interrupts, next) = granted.hand_again();
        assert_eq!(next, Next::Again(kind));
        assert!(poller.take(kind).is_ok());
    }
}

#[test]
fn a_full_poll_under_a_disable_is_completed() {
    let mut napi = SerialNapi::new(CONTROLLER);
    napi.enable(CONTROLLER, false).unwrap();
    assert_eq!(napi.schedule(INTERRUPT), Prep::Granted);
    napi.hand(INTERRUPT, Kind::List).unwrap();
    assert!(napi.take(POLLER, Kind::List));
    assert_eq!(napi.end(INTERRUPT, true), Err(Fault::NOT_ALLOWED));
    assert_eq!(napi.end(POLLER, true), Ok(Some(Next::Repoll)));
    napi.mark_disable(CONTROLLER).unwrap();
    assert!(napi.take(POLLER, Kind::List));
    assert_eq!(napi.end(POLLER, true), Ok(Some(Next::Gone)));
    assert_eq!(napi.take_disable(CONTROLLER), Ok(true));
}

#[test]
fn an_end_on_one_thread_goes_by_the_word() {
    let mut napi = SerialNapi::new(CONTROLLER);
    napi.enable(CONTROLLER, true).unwrap();
    assert_eq!(napi.schedule(INTERRUPT), Prep::Granted);
    napi.hand(INTERRUPT, Kind::Thread).unwrap();
    assert!(napi.take(POLLER, Kind::Thread));
    assert_eq!(napi.end(POLLER, true), Ok(None));
    assert_eq!(napi.schedule(INTERRUPT), Prep::Missed);
    let again = Some(Next::Again(Kind::Thread));
    assert_eq!(napi.end(POLLER, false), Ok(again));
    assert!(napi.take(POLLER, Kind::Thread));
    assert_eq!(napi.end(POLLER, false), Ok(Some(Next::Gone)));
}

#[test]
fn an_open_asks_once_and_a_request_goes_by_the_word() {
    for threaded in [false, true] {
        let Shared {
            input: _input,
            control,
            callers: [mut interrupts, mut poller],
        } = Shared::<2>::new(4).unwrap();
        assert_eq!(interrupts.request(), (Prep::Missed, Next::Gone));
        let mut card = Model::default();
        let kind = if threaded { Kind::Thread } else { Kind::List };
        let (_on, prep, next) = control.open(threaded, &mut poller, &mut card).unwrap();
        assert_eq!((prep, next), (Prep::Granted, Next::Again(kind)));
        assert!(card.masked);
        assert_eq!(interrupts.request(), (Prep::Missed, Next::Gone));
        let polling = poller.take(kind).expect("it was asked for");
        let (poller, next) = match polling.end(false) {
            End::Over(poller, next) => (poller, next),
            _ => panic!("it is over"),
        };
        assert_eq!(next, Next::Again(kind));
        let polling = poller.take(kind).expect("again");
        assert!(matches!(polling.end(false), End::Over(_, Next::Gone)));
        interrupts.set_threaded(!threaded);
        let other = if threaded { Kind::List } else { Kind::Thread };
        assert_eq!(interrupts.request(), (Prep::Granted, Next::Again(other)));
    }
}

#[test]
fn a_fault_says_what_it_means() {
    assert_eq!(Fault::BAD_WEIGHT.message(), "a weight is 1 to 64 packets");
    assert_eq!(Fault::OUT_OF_MEMORY.message(), "out of memory");
}

// ---- faults

#[test]
fn faults_have_numbers_and_names() {
    assert_eq!(Fault::NOT_ALLOWED.number(), 100);
    assert_eq!(Fault::NOT_ALLOWED.name(), "FQ_NOT_ALLOWED");
    let fault: Box<dyn std::error::Error> = Fault::OUT_OF_MEMORY.into();
    assert_eq!(fault.to_string(), "FQ_OUT_OF_MEMORY");
    assert_eq!(sys::fq_status_name(5), "?");
}

// ---- ends of polls that handle a card

// A card: its packets, those that arrive after its next unmask, and whether it is masked.
#[derive(Default)]
struct Model {
    there: usize,
    behind_unmask: usize,
    masked: bool,
}

impl Card for Model {
    fn mask(&mut self) {
        self.masked = true;
    }

    fn unmask(&mut self) {
        self.masked = false;
        self.there += std::mem::take(&mut self.behind_unmask);
    }
}

impl Look for Model {
    fn look(&mut self) -> bool {
        self.there != 0
    }
}

impl Poll for Model {
    fn poll(&mut self, most: usize) -> usize {
        let count = most.min(self.there);
        self.there -= count;
        count
    }
}

fn over(end: End) -> (Caller, Next) {
    match end {
        End::Over(caller, next) => (caller, next),
        End::Held(_) => panic!("it polls on"),
    }
}

fn bare(threaded: bool) -> (Control<On>, Caller, Caller) {
    let Bare {
        control,
        callers: [interrupts, poller],
    } = Bare::new().unwrap();
    (control.enable(threaded), interrupts, poller)
}

#[test]
fn a_card_is_masked_at_the_grant_and_looked_at_behind_the_unmask() {
    let (on, mut interrupts, poller) = bare(false);
    let mut card = Model {
        behind_unmask: 1,
        ..Model::default()
    };
    assert_eq!(
        interrupts.interrupt_masked(Kind::List, &mut card),
        Prep::Granted
    );
    assert!(card.masked);
    assert_eq!(interrupts.look(), FQ_BIT_SCHED | FQ_BIT_QUEUED);
    let (poller, next) = over(take(poller).end_watched(false, &mut card));
    assert_eq!(
        (next, card.masked, card.there),
        (Next::Again(Kind::List), true, 1)
    );
    card.there = 0;
    let (_, next) = over(take(poller).end_watched(false, &mut card));
    assert_eq!((next, card.masked), (Next::Gone, false));
    let _off = on.disable();
}

#[test]
fn a_card_that_is_not_looked_at_is_polled_behind_the_unmask() {
    let (on, mut interrupts, poller) = bare(false);
    let mut card = Model {
        behind_unmask: 3,
        ..Model::default()
    };
    assert_eq!(
        interrupts.interrupt_masked(Kind::List, &mut card),
        Prep::Granted
    );
    let mut work = 0;
    let two = Weight::new(2).unwrap();
    let (poller, next) = over(take(poller).end_unmasked(&mut card, two, &mut work));
    assert_eq!(
        (work, card.there, card.masked, next),
        (2, 1, true, Next::Repoll)
    );
    let polling = take(poller);
    assert_eq!(
        interrupts.interrupt_masked(Kind::List, &mut card),
        Prep::Missed
    );
    work = card.poll(64);
    let (poller, next) = over(polling.end_unmasked(&mut card, two, &mut work));
    assert_eq!(
        (work, card.masked, next),
        (1, true, Next::Again(Kind::List))
    );
    work = 0;
    let (_, next) = over(take(poller).end_unmasked(&mut card, two, &mut work));
    assert_eq!((work, card.masked, next), (0, false, Next::Gone));
    let _off = on.disable();
}

#[test]
fn a_full_poll_stays_with_its_thread() {
    let (on, mut interrupts, poller) = bare(true);
    assert_eq!(interrupts.interrupt(Kind::Thread), Prep::Granted);
    let polling = match poller.take(Kind::Thread).unwrap().end(true) {
        End::Held(polling) => polling,
        End::Over(..) => panic!("it is on a list"),
    };
    assert_eq!(polling.look() & FQ_BIT_QUEUED, 0);
    assert_eq!(interrupts.interrupt(Kind::Thread), Prep::Missed);
    let (poller, next) = over(polling.end(false));
    assert_eq!(next, Next::Again(Kind::Thread));
    let marked = on.mark();
    let (_, next) = over(poller.take(Kind::Thread).unwrap().end(true));
    assert_eq!(next, Next::Gone);
    assert!(matches!(marked.try_take(), TryTake::Taken(_)));
}

// ---- other counts and results

#[test]
fn polls_are_counted_of_whoever_has_them() {
    let (mut input, on, mut interrupts, poller) = enabled(4);
    input.put(packet(1)).unwrap();
    interrupts.interrupt(Kind::List);
    let mut polling = take(poller);
    let mut batch = Batch::new();
    polling.poll(Weight::MAX, &mut batch);
    let counts = polling.counts();
    assert_eq!((counts.polls, counts.packets, counts.bytes), (1, 1, 60));
    let (poller, _) = over(polling.end(false));
    let (asked, ended) = (interrupts.answers(), poller.answers());
    assert_eq!((asked.granted, asked.missed, asked.released), (1, 0, 0));
    assert_eq!((ended.granted, ended.released, ended.again), (0, 1, 0));
    assert_eq!((input.shown().put, input.shown().capacity), (1, 4));
    let mut busy = poller.busy().unwrap();
    busy.poll(Weight::MAX, &mut batch);
    assert_eq!((busy.counts().polls, busy.look() & FQ_BIT_QUEUED), (2, 0));
    let (_, next) = over(busy.stop().end(false));
    assert_eq!(next, Next::Gone);
    assert_eq!(on.disable().counts().packets, 1);
}

#[test]
fn a_ring_ends_with_its_totals() {
    let mut ring = Ring::new(4).unwrap();
    assert_eq!(ring.put_all(&[packet(1), packet(2)]), 2);
    let mut batch = Batch::new();
    assert_eq!(numbers(ring.poll(Weight::new(1).unwrap(), &mut batch)), [1]);
    assert_eq!(ring.counts().polls, 1);
    assert_eq!((ring.shown().put, ring.shown().capacity), (2, 4));
    let totals = ring.finish();
    assert_eq!(
        (totals.put, totals.polled, totals.left, totals.bytes),
        (2, 1, 1, 120)
    );
}

#[test]
fn the_structs_have_the_sizes_that_the_library_tells() {
    use fintaqush::sys::*;
    use std::mem::size_of;
    // SAFETY: the call takes any number.
    let told = |which| unsafe { fq_struct_size(which) };
    assert_eq!(told(FQ_STRUCT_HANDLE), size_of::<fq_handle>());
    assert_eq!(told(FQ_STRUCT_DQL), size_of::<fq_dql>());
    assert_eq!(told(FQ_STRUCT_NAPI), size_of::<fq_napi>());
    assert_eq!(told(FQ_STRUCT_PACKET), size_of::<fq_packet>());
    assert_eq!(told(FQ_STRUCT_TX_WATCHDOG), size_of::<fq_tx_watchdog>());
    assert_eq!(told(FQ_STRUCT_TODO), size_of::<fq_todo>());
    assert_eq!(told(FQ_STRUCT_TODO + 1), 0);
}

// A card with edge-triggered interrupts: packets that arrive while it is masked raise none.
#[derive(Default)]
struct EdgeCard {
    open: bool,
    waiting: u32,
    taken: u32,
}

impl Cards for EdgeCard {
    fn mask(&mut self, _: u32) {
        self.open = false;
    }

    fn unmask(&mut self, _: u32) {
        self.open = true;
    }

    fn look(&mut self, _: u32) -> bool {
        self.waiting > 0
    }

    fn fetch(&mut self, _: u32, most: u32) -> u32 {
        let count = most.min(self.waiting);
        self.waiting -= count;
        self.taken += count;
        count
    }
}

#[test]
fn a_driver_polls_what_came_before_it_was_opened() {
    let mut driver = Driver::new(2, 300, Weight::MAX, 1024).unwrap();
    let mut card = EdgeCard {
        waiting: 100,
        ..EdgeCard::default()
    };
    assert_eq!(driver.act(&mut card), Ok(What::Sleep));
    driver.open(1).unwrap();
    assert_eq!(driver.open(1), Err(Fault::NOT_DUE));
    let mut did = Vec::new();
    while did.last() != Some(&What::Sleep) {
        did.push(driver.act(&mut card).unwrap());
    }
    did.retain(|what| !matches!(what, What::Ended(_)));
    let fetch = What::Fetch {
        device: 1,
        most: 64,
        mask: false,
    };
    let wanted = [
        What::Unmask(1),
        What::Look(1),
        What::Mask(1),
        fetch,
        fetch,
        What::Unmask(1),
        What::Look(1),
        What::Sleep,
    ];
    assert_eq!(did, wanted);
    let shown = driver.shown(1).unwrap();
    assert_eq!((card.open, card.taken), (true, 100));
    assert_eq!(
        (shown.state, shown.polls, shown.packets),
        (DeviceState::Open, 2, 100)
    );
    assert_eq!(driver.end_run(), Err(Fault::NOT_DUE));
    assert_eq!(driver.interrupt(1), Ok(Prep::Granted));
    assert_eq!(driver.interrupt(1), Ok(Prep::Missed));
    driver.stop(1).unwrap();
    assert_eq!(driver.stop(1), Err(Fault::NOT_DUE));
    assert_eq!(driver.interrupt(1), Ok(Prep::Disabled));
    while driver.act(&mut card) != Ok(What::Sleep) {}
    assert_eq!(driver.shown(1).unwrap().state, DeviceState::Closed);
    assert!(!card.open);
}

// A card with a timer.
#[derive(Default)]
struct TimedCard {
    masked: bool,
    packets: u32,
    timer: u64,
}

impl Cards for TimedCard {
    fn mask(&mut self, _: u32) {
        self.masked = true;
    }
    fn unmask(&mut self, _: u32) {
        self.masked = false;
    }
    fn look(&mut self, _: u32) -> bool {
        self.packets > 0
    }
    fn fetch(&mut self, _: u32, most: u32) -> u32 {
        let taken = most.min(self.packets);
        self.packets -= taken;
        taken
    }
    fn timer(&mut self, _: u32, nanoseconds: u64) {
        self.timer = nanoseconds;
    }
}

#[test]
fn a_device_defers_its_interrupt() {
    let settings = DeviceSettings {
        weight: Weight::new(8).unwrap(),
        defer_hard_irqs: 1,
        gro_flush_timeout: 5000,
        empty_polls: 0,
    };
    let mut card = TimedCard {
        packets: 9,
        ..TimedCard::default()
    };
    let mut driver = Driver::new(1, 300, Weight::MAX, 1024).unwrap();
    assert_eq!(driver.set(1, settings), Err(Fault::BAD_DEVICE));
    driver.set(0, settings).unwrap();
    let without_timeout = DeviceSettings {
        gro_flush_timeout: 0,
        ..settings
    };
    assert_eq!(driver.set(0, without_timeout), Err(Fault::BAD_SETTING));
    assert_eq!(driver.timer(0), Ok(false));
    driver.open(0).unwrap();
    assert_eq!(driver.set(0, settings), Err(Fault::NOT_ALLOWED));
    while driver.act(&mut card) != Ok(What::Sleep) {}
    assert_eq!((card.masked, card.packets, card.timer), (true, 0, 5000));
    assert_eq!(driver.shown(0).unwrap().polls, 2);
    assert_eq!(driver.timer(0), Ok(true));
    assert_eq!(driver.timer(1), Err(Fault::BAD_DEVICE));
    while driver.act(&mut card) != Ok(What::Sleep) {}
    assert!(!card.masked);
}

// A card that is unmasked and looked at in a fetch.
struct RearmCard(EdgeCard);

impl Cards for RearmCard {
    fn mask(&mut self, device: u32) {
        self.0.mask(device);
    }

    fn unmask(&mut self, device: u32) {
        self.0.unmask(device);
    }

    fn look(&mut self, device: u32) -> bool {
        self.0.look(device)
    }

    fn fetch(&mut self, device: u32, most: u32) -> u32 {
        self.0.fetch(device, most)
    }

    fn rearm(&mut self, device: u32) -> Option<bool> {
        self.0.unmask(device);
        Some(self.0.look(device))
    }
}

#[test]
fn a_fetch_may_unmask_and_look() {
    let mut driver = Driver::new(1, 300, Weight::MAX, 1024).unwrap();
    let mut card = RearmCard(EdgeCard::default());
    driver.open(0).unwrap();
    while driver.act(&mut card) != Ok(What::Sleep) {}
    card.0.waiting = 1;
    assert_eq!(driver.interrupt(0), Ok(Prep::Granted));
    assert_eq!(driver.act(&mut card), Ok(What::Mask(0)));
    let mut todo = driver.next();
    let fetch = What::Fetch {
        device: 0,
        most: 64,
        mask: false,
    };
    assert_eq!((todo.what(), todo.run()), (fetch, None));
    todo.set_packets(card.fetch(0, 64));
    todo.set_rearmed(card.rearm(0).unwrap());
    assert_eq!(driver.step(&mut todo), Ok(What::Sleep));
    assert_eq!(todo.run().map(|run| (run.polls, run.work)), Some((1, 1)));
    card.0.waiting = 65;
    assert_eq!(driver.interrupt(0), Ok(Prep::Granted));
    let did: Vec<_> = (0..5).map(|_| driver.act(&mut card).unwrap()).collect();
    assert_eq!(did[0], What::Mask(0));
    assert!(matches!(did[2], What::Ended(_)));
    assert_eq!((did[1], did[3], did[4]), (fetch, fetch, What::Sleep));
    assert_eq!((card.0.taken, card.0.open), (66, true));
}

#[test]
fn a_loop_needs_only_steps() {
    let mut driver = Driver::new(1, 300, Weight::new(8).unwrap(), 1024).unwrap();
    let mut card = EdgeCard {
        waiting: 100,
        ..EdgeCard::default()
    };
    let mut todo = Todo::NONE;
    assert_eq!(driver.step(&mut todo), Ok(What::Sleep));
    driver.open(0).unwrap();
    loop {
        match driver.step(&mut todo).unwrap() {
            What::Sleep => break,
            What::Mask(device) => card.mask(device),
            What::Unmask(device) => card.unmask(device),
            What::Look(device) => todo.set_packets(card.look(device).into()),
            What::Fetch { device, most, mask } => {
                assert!(!mask);
                todo.set_packets(9);
                assert_eq!(driver.step(&mut todo), Err(Fault::BAD_WORK));
                assert_eq!(driver.step(&mut todo), Err(Fault::NOT_REPORTED));
                todo = driver.next();
                todo.set_packets(card.fetch(device, most));
            }
            What::Timer { .. } | What::Ended(_) => {}
        }
    }
    let shown = driver.shown(0).unwrap();
    assert_eq!(
        (card.open, card.taken, shown.polls, shown.packets),
        (true, 100, 13, 100)
    );
    driver.stop(0).unwrap();
    let mask = driver.next();
    todo = mask;
    assert_eq!(driver.step(&mut todo), Ok(What::Sleep));
    assert!(todo.was_due());
    todo = mask;
    assert_eq!(driver.step(&mut todo), Ok(What::Sleep)); // it was reported already
    assert!(!todo.was_due());
    assert_eq!(driver.done(mask, 0), Err(Fault::NOT_DUE));
}

// Does what a driver says after each turn, until it sleeps; the fetches unmask and look. Returns how many fetches masked first.
fn turns(driver: &mut Driver, todo: &mut Todo, cards: &mut [EdgeCard], mut interrupts: u64) -> u32 {
    let mut masks = 0;
    loop {
        match driver.turn(interrupts, todo).unwrap() {
            What::Sleep => return masks,
            What::Mask(device) => cards[device as usize].mask(device),
            What::Unmask(device) => cards[device as usize].unmask(device),
            What::Look(device) => todo.set_packets(cards[device as usize].look(device).into()),
            What::Fetch { device, most, mask } => {
                let card = &mut cards[device as usize];
                masks += u32::from(mask);
                card.open &= !mask;
                assert!(!card.open);
                let taken = card.fetch(device, most);
                todo.set_packets(taken);
                if taken < most {
                    card.unmask(device);
                    todo.set_rearmed(card.look(device));
                }
            }
            What::Timer { .. } | What::Ended(_) => {}
        }
        interrupts = 0;
    }
}

#[test]
fn a_packet_takes_two_turns() {
    let mut driver = Driver::new(2, 300, Weight::new(8).unwrap(), 1024).unwrap();
    let full = || EdgeCard {
        waiting: 100,
        ..EdgeCard::default()
    };
    let (mut cards, mut todo) = ([full(), full()], Todo::NONE);
    driver.open(0).unwrap();
    driver.open(1).unwrap();
    turns(&mut driver, &mut todo, &mut cards, 0);
    assert_eq!((cards[0].taken, cards[1].taken), (100, 100));
    cards[1].waiting = 1;
    assert_eq!(turns(&mut driver, &mut todo, &mut cards, 1 << 1), 1);
    assert_eq!(todo.run().map(|run| (run.polls, run.work)), Some((1, 1)));
    assert_eq!((cards[1].taken, cards[1].open), (101, true));

    assert_eq!(driver.turn(1 << 2, &mut todo), Err(Fault::BAD_DEVICE));
    todo = Todo::NONE;
    let fetch = What::Fetch {
        device: 0,
        most: 8,
        mask: true,
    };
    assert_eq!(driver.turn(1 << 0, &mut todo), Ok(fetch));
    let mut none = Todo::NONE;
    assert_eq!(driver.turn(0, &mut none), Err(Fault::NOT_REPORTED));
    assert_eq!(none.what(), What::Sleep);
    let mut many = todo;
    many.set_packets(9);
    assert_eq!(driver.turn(0, &mut many), Err(Fault::BAD_WORK));
    assert_eq!(driver.next().what(), fetch);
    assert_eq!(driver.turn(0, &mut todo), Ok(What::Unmask(0)));
    driver.stop(0).unwrap();
    assert_eq!(driver.turn(0, &mut todo), Ok(What::Mask(0)));
    assert!(!todo.was_due());
}

#[test]
fn a_driver_refuses_what_is_not_due() {
    assert_eq!(
        Driver::new(0, 300, Weight::MAX, 1024).unwrap_err(),
        Fault::BAD_COUNT
    );
    assert_eq!(
        Driver::new(1, 0, Weight::MAX, 1024).unwrap_err(),
        Fault::BAD_BUDGET
    );
    let mut driver = Driver::new(1, 300, Weight::new(8).unwrap(), 1024).unwrap();
    assert_eq!(driver.open(1), Err(Fault::BAD_DEVICE));
    assert_eq!(driver.interrupt(1), Err(Fault::BAD_DEVICE));
    assert_eq!(driver.shown(1).unwrap_err(), Fault::BAD_DEVICE);
    driver.open(0).unwrap();
    let todo = driver.next();
    assert_eq!(todo.what(), What::Unmask(0));
    driver.done(todo, 0).unwrap();
    assert_eq!(driver.done(todo, 0), Err(Fault::NOT_DUE));
    let todo = driver.next();
    driver.done(todo, 3).unwrap();
    let todo = driver.next();
    driver.done(todo, 0).unwrap();
    let todo = driver.next();
    assert!(matches!(
        todo.what(),
        What::Fetch {
            device: 0,
            most: 8,
            ..
        }
    ));
    assert_eq!(driver.done(todo, 9), Err(Fault::BAD_WORK));
    let broken = catch_unwind(AssertUnwindSafe(|| {
        struct Broken(bool);
        impl Cards for Broken {
            fn mask(&mut self, _: u32) {}
            fn unmask(&mut self, _: u32) {}
            fn look(&mut self, _: u32) -> bool {
                false
            }
            fn fetch(&mut self, _: u32, most: u32) -> u32 {
                assert!(!self.0, "a card");
                most + 1
            }
        }
        assert_eq!(driver.act(&mut Broken(false)), Err(Fault::BAD_WORK));
        driver.act(&mut Broken(true))
    }));
    assert!(broken.is_err());
    let mut other = Driver::new(1, 300, Weight::MAX, 1024).unwrap();
    assert_eq!(other.done(todo, 1), Err(Fault::NOT_DUE)); // another driver's action
    assert!(matches!(
        driver.next().what(),
        What::Fetch {
            device: 0,
            most: 8,
            mask: true
        }
    ));
}

#[test]
fn the_machine_reports_what_its_program_does() {
    let arrivals = include_bytes!("../../../crates/napi_machine/stdin");
    let settings = MachineSettings {
        defer_hard_irqs: 2,
        gro_flush_timeout: 20000,
        ..MachineSettings::default()
    };
    let report = machine(arrivals, &settings).unwrap();
    assert_eq!(
        report,
        include_bytes!("../../../crates/napi_machine/stdout")
    );
    let falls = machine(b"ns,device,bytes\n5,1,60\n4,1,60\n", &settings).unwrap_err();
    let message = "arrivals fault 8 Falls row 2".to_string();
    assert_eq!(falls.to_string(), message);
    assert_eq!(
        falls,
        MachineFault::Arrivals {
            fault: 8,
            row: 2,
            message
        }
    );
    let of_other_size = MachineSettings {
        size: 1,
        ..settings
    };
    assert_eq!(
        machine(arrivals, &of_other_size),
        Err(MachineFault::Refused(Fault::BAD_SIZE))
    );
    let late = MachineSettings {
        wake: 1_000_000_001,
        ..settings
    };
    assert_eq!(machine(arrivals, &late), Err(MachineFault::Setting(21)));
    let both = MachineSettings {
        rx_gap: 20_000,
        rx_nsecs: 1,
        ..settings
    };
    assert_eq!(machine(arrivals, &both), Err(MachineFault::Setting(23)));
    let early = MachineSettings {
        early: 1500,
        heedless: 1,
        ..settings
    };
    assert_eq!(machine(arrivals, &early), Err(MachineFault::Setting(29)));
    let timer = MachineSettings {
        timer: 1_000_000_001,
        ..settings
    };
    assert_eq!(machine(arrivals, &timer), Err(MachineFault::Setting(24)));
    let many: String = (0..4000)
        .map(|i| format!("{i},{},60\n", i % 64 + 1))
        .collect();
    let many = format!("ns,device,bytes\n{many}");
    assert!(machine(many.as_bytes(), &settings).unwrap().len() > 4096);
}

#[test]
fn a_word_of_bits_is_shared() {
    let word = Word::new();
    assert!(!word.any());
    std::thread::scope(|scope| {
        for bit in 0..4 {
            let word = &word;
            scope.spawn(move || word.raise(bit));
        }
    });
    assert!(word.any() && !word.raise(63));
    assert_eq!((word.take(), word.any()), (1 << 63 | 0b1111, false));
    assert!(word.raise(1));
}

#[test]
fn a_queue_that_stays_stopped_is_found() {
    let mut ring = TxRing::new(1, 0, 1, 1000, 0).unwrap();
    let mut watchdog = TxWatchdog::default();
    assert!(!ring.watch(&mut watchdog, 0, 0));
    ring.send(60).unwrap();
    assert!(!ring.watch(&mut watchdog, 500, 10) && !ring.watch(&mut watchdog, 500, 509));
    assert!(ring.watch(&mut watchdog, 500, 510));
    ring.done(1, 511).unwrap();
    assert!(!ring.watch(&mut watchdog, 0, 2000));
}
