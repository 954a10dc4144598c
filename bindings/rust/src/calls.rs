//! The calls of the library by references and slices in place of pointers. `scripts/abi.py` writes this file.
#![allow(dead_code)] // some have no use in this crate

use crate::sys::*;

pub(crate) fn version(to: &mut [u8]) -> usize {
    // SAFETY: the references and slices are valid for their whole types, and a mutable one overlaps no other.
    unsafe { fq_version(to.as_mut_ptr().cast(), to.len()) }
}

pub(crate) fn status_text(status: u32, to: &mut [u8]) -> usize {
    // SAFETY: the references and slices are valid for their whole types, and a mutable one overlaps no other.
    unsafe { fq_status_text(status, to.as_mut_ptr().cast(), to.len()) }
}

pub(crate) fn status_message(status: u32, to: &mut [u8]) -> usize {
    // SAFETY: the references and slices are valid for their whole types, and a mutable one overlaps no other.
    unsafe { fq_status_message(status, to.as_mut_ptr().cast(), to.len()) }
}

pub(crate) fn fault_text(fault: u32, to: &mut [u8]) -> usize {
    // SAFETY: the references and slices are valid for their whole types, and a mutable one overlaps no other.
    unsafe { fq_fault_text(fault, to.as_mut_ptr().cast(), to.len()) }
}

pub(crate) fn version_number() -> u32 {
    // SAFETY: the references and slices are valid for their whole types, and a mutable one overlaps no other.
    unsafe { fq_version_number() }
}

pub(crate) fn struct_size(which: u32) -> usize {
    // SAFETY: the references and slices are valid for their whole types, and a mutable one overlaps no other.
    unsafe { fq_struct_size(which) }
}

pub(crate) fn dql_init(dql: &mut fq_dql, min: u32, max: u32, hold_ms: u64, now_ms: u64) -> u32 {
    // SAFETY: the references and slices are valid for their whole types, and a mutable one overlaps no other.
    unsafe { fq_dql_init(dql, min, max, hold_ms, now_ms) }
}

pub(crate) fn dql_queued(dql: &mut fq_dql, count: u32) -> u32 {
    // SAFETY: the references and slices are valid for their whole types, and a mutable one overlaps no other.
    unsafe { fq_dql_queued(dql, count) }
}

pub(crate) fn dql_completed(dql: &mut fq_dql, count: u32, now_ms: u64) -> u32 {
    // SAFETY: the references and slices are valid for their whole types, and a mutable one overlaps no other.
    unsafe { fq_dql_completed(dql, count, now_ms) }
}

pub(crate) fn dql_reset(dql: &mut fq_dql, now_ms: u64) {
    // SAFETY: the references and slices are valid for their whole types, and a mutable one overlaps no other.
    unsafe { fq_dql_reset(dql, now_ms) }
}

pub(crate) fn dql_limit(dql: &fq_dql) -> u32 {
    // SAFETY: the references and slices are valid for their whole types, and a mutable one overlaps no other.
    unsafe { fq_dql_limit(dql) }
}

pub(crate) fn dql_avail(dql: &fq_dql) -> i64 {
    // SAFETY: the references and slices are valid for their whole types, and a mutable one overlaps no other.
    unsafe { fq_dql_avail(dql) }
}

pub(crate) fn dql_in_flight(dql: &fq_dql) -> u32 {
    // SAFETY: the references and slices are valid for their whole types, and a mutable one overlaps no other.
    unsafe { fq_dql_in_flight(dql) }
}

pub(crate) fn napi_new(controller: u32) -> fq_napi {
    // SAFETY: the references and slices are valid for their whole types, and a mutable one overlaps no other.
    unsafe { fq_napi_new(controller) }
}

pub(crate) fn napi_schedule(napi: &mut fq_napi, who: u32) -> u32 {
    // SAFETY: the references and slices are valid for their whole types, and a mutable one overlaps no other.
    unsafe { fq_napi_schedule(napi, who) }
}

pub(crate) fn napi_hand(napi: &mut fq_napi, who: u32, kind: u32) -> u32 {
    // SAFETY: the references and slices are valid for their whole types, and a mutable one overlaps no other.
    unsafe { fq_napi_hand(napi, who, kind) }
}

pub(crate) fn napi_take(napi: &mut fq_napi, who: u32, kind: u32) -> u32 {
    // SAFETY: the references and slices are valid for their whole types, and a mutable one overlaps no other.
    unsafe { fq_napi_take(napi, who, kind) }
}

pub(crate) fn napi_complete(napi: &mut fq_napi, who: u32) -> u32 {
    // SAFETY: the references and slices are valid for their whole types, and a mutable one overlaps no other.
    unsafe { fq_napi_complete(napi, who) }
}

pub(crate) fn napi_end(napi: &mut fq_napi, who: u32, full: bool, next: &mut u32) -> u32 {
    // SAFETY: the references and slices are valid for their whole types, and a mutable one overlaps no other.
    unsafe { fq_napi_end(napi, who, full, next) }
}

pub(crate) fn napi_busy_take(napi: &mut fq_napi, who: u32) -> u32 {
    // SAFETY: the references and slices are valid for their whole types, and a mutable one overlaps no other.
    unsafe { fq_napi_busy_take(napi, who) }
}

pub(crate) fn napi_busy_stop(napi: &mut fq_napi, who: u32) -> u32 {
    // SAFETY: the references and slices are valid for their whole types, and a mutable one overlaps no other.
    unsafe { fq_napi_busy_stop(napi, who) }
}

pub(crate) fn napi_set_threaded(napi: &mut fq_napi, who: u32, threaded: bool) {
    // SAFETY: the references and slices are valid for their whole types, and a mutable one overlaps no other.
    unsafe { fq_napi_set_threaded(napi, who, threaded) }
}

pub(crate) fn napi_mark_disable(napi: &mut fq_napi, who: u32) -> u32 {
    // SAFETY: the references and slices are valid for their whole types, and a mutable one overlaps no other.
    unsafe { fq_napi_mark_disable(napi, who) }
}

pub(crate) fn napi_take_disable(napi: &mut fq_napi, who: u32) -> u32 {
    // SAFETY: the references and slices are valid for their whole types, and a mutable one overlaps no other.
    unsafe { fq_napi_take_disable(napi, who) }
}

pub(crate) fn napi_unmark(napi: &mut fq_napi, who: u32) -> u32 {
    // SAFETY: the references and slices are valid for their whole types, and a mutable one overlaps no other.
    unsafe { fq_napi_unmark(napi, who) }
}

pub(crate) fn napi_enable(napi: &mut fq_napi, who: u32, threaded: bool) -> u32 {
    // SAFETY: the references and slices are valid for their whole types, and a mutable one overlaps no other.
    unsafe { fq_napi_enable(napi, who, threaded) }
}

pub(crate) fn napi_word(napi: &fq_napi) -> u64 {
    // SAFETY: the references and slices are valid for their whole types, and a mutable one overlaps no other.
    unsafe { fq_napi_word(napi) }
}

pub(crate) fn free(handle: &mut fq_handle) -> u32 {
    // SAFETY: the references and slices are valid for their whole types, and a mutable one overlaps no other.
    unsafe { fq_free(handle) }
}

pub(crate) fn abandon(handle: &mut fq_handle) -> u32 {
    // SAFETY: the references and slices are valid for their whole types, and a mutable one overlaps no other.
    unsafe { fq_abandon(handle) }
}

pub(crate) fn move_(from: &mut fq_handle, to: &mut fq_handle) -> u32 {
    // SAFETY: the references and slices are valid for their whole types, and a mutable one overlaps no other.
    unsafe { fq_move(from, to) }
}

pub(crate) fn ring_new(ring: &mut fq_ring, capacity: usize) -> u32 {
    // SAFETY: the references and slices are valid for their whole types, and a mutable one overlaps no other.
    unsafe { fq_ring_new(ring, capacity) }
}

pub(crate) fn ring_put(ring: &mut fq_ring, number: u64, bytes: u32) -> u32 {
    // SAFETY: the references and slices are valid for their whole types, and a mutable one overlaps no other.
    unsafe { fq_ring_put(ring, number, bytes) }
}

pub(crate) fn ring_put_all(ring: &mut fq_ring, packets: &[fq_packet], count: &mut usize) -> u32 {
    // SAFETY: the references and slices are valid for their whole types, and a mutable one overlaps no other.
    unsafe { fq_ring_put_all(ring, packets.as_ptr(), packets.len(), count) }
}

pub(crate) fn ring_poll(
    ring: &mut fq_ring,
    weight: usize,
    out: &mut [fq_packet],
    count: &mut usize,
) -> u32 {
    // SAFETY: the references and slices are valid for their whole types, and a mutable one overlaps no other.
    unsafe { fq_ring_poll(ring, weight, out.as_mut_ptr(), out.len(), count) }
}

pub(crate) fn count_sized(handle: &fq_handle, counts: &mut fq_counts) -> u32 {
    // SAFETY: the references and slices are valid for their whole types, and a mutable one overlaps no other.
    unsafe { fq_count_sized(handle, counts) }
}

pub(crate) fn ring_show_sized(ring: &fq_ring, shown: &mut fq_ring_shown) -> u32 {
    // SAFETY: the references and slices are valid for their whole types, and a mutable one overlaps no other.
    unsafe { fq_ring_show_sized(ring, shown) }
}

pub(crate) fn ring_split(ring: &mut fq_ring, out: &mut fq_ring) -> u32 {
    // SAFETY: the references and slices are valid for their whole types, and a mutable one overlaps no other.
    unsafe { fq_ring_split(ring, out) }
}

pub(crate) fn ring_finish_sized(ring: &mut fq_ring, totals: &mut fq_totals) -> u32 {
    // SAFETY: the references and slices are valid for their whole types, and a mutable one overlaps no other.
    unsafe { fq_ring_finish_sized(ring, totals) }
}

pub(crate) fn ring_places(ring: &mut fq_ring, out: &mut fq_ring, capacity: usize) -> u32 {
    // SAFETY: the references and slices are valid for their whole types, and a mutable one overlaps no other.
    unsafe { fq_ring_places(ring, out, capacity) }
}

pub(crate) fn ring_claim(
    ring: &mut fq_ring,
    publish: usize,
    want: usize,
    first: &mut usize,
    count: &mut usize,
) -> u32 {
    // SAFETY: the references and slices are valid for their whole types, and a mutable one overlaps no other.
    unsafe { fq_ring_claim(ring, publish, want, first, count) }
}

pub(crate) fn ring_peek(
    ring: &mut fq_ring,
    release: usize,
    want: usize,
    first: &mut usize,
    count: &mut usize,
) -> u32 {
    // SAFETY: the references and slices are valid for their whole types, and a mutable one overlaps no other.
    unsafe { fq_ring_peek(ring, release, want, first, count) }
}

pub(crate) fn tx_new(
    tx: &mut fq_tx,
    capacity: usize,
    min: u32,
    max: u32,
    hold_ms: u64,
    now_ms: u64,
) -> u32 {
    // SAFETY: the references and slices are valid for their whole types, and a mutable one overlaps no other.
    unsafe { fq_tx_new(tx, capacity, min, max, hold_ms, now_ms) }
}

pub(crate) fn tx_send(tx: &mut fq_tx, bytes: u32) -> u32 {
    // SAFETY: the references and slices are valid for their whole types, and a mutable one overlaps no other.
    unsafe { fq_tx_send(tx, bytes) }
}

pub(crate) fn tx_done(tx: &mut fq_tx, count: u32, now_ms: u64) -> u32 {
    // SAFETY: the references and slices are valid for their whole types, and a mutable one overlaps no other.
    unsafe { fq_tx_done(tx, count, now_ms) }
}

pub(crate) fn tx_state_sized(tx: &fq_tx, state: &mut fq_tx_shown) -> u32 {
    // SAFETY: the references and slices are valid for their whole types, and a mutable one overlaps no other.
    unsafe { fq_tx_state_sized(tx, state) }
}

pub(crate) fn tx_watch(
    tx: &fq_tx,
    watchdog: &mut fq_tx_watchdog,
    limit_ms: u64,
    now_ms: u64,
    stuck: &mut bool,
) -> u32 {
    // SAFETY: the references and slices are valid for their whole types, and a mutable one overlaps no other.
    unsafe { fq_tx_watch(tx, watchdog, limit_ms, now_ms, stuck) }
}

pub(crate) fn shared_new(
    ring: &mut fq_ring,
    control: &mut fq_control,
    callers: &mut [fq_caller],
) -> u32 {
    // SAFETY: the references and slices are valid for their whole types, and a mutable one overlaps no other.
    unsafe { fq_shared_new(ring, control, callers.as_mut_ptr(), callers.len()) }
}

pub(crate) fn shared_bare(control: &mut fq_control, callers: &mut [fq_caller]) -> u32 {
    // SAFETY: the references and slices are valid for their whole types, and a mutable one overlaps no other.
    unsafe { fq_shared_bare(control, callers.as_mut_ptr(), callers.len()) }
}

pub(crate) fn caller_schedule(caller: &mut fq_caller) -> u32 {
    // SAFETY: the references and slices are valid for their whole types, and a mutable one overlaps no other.
    unsafe { fq_caller_schedule(caller) }
}

pub(crate) fn caller_schedule_prep(caller: &mut fq_caller) -> u32 {
    // SAFETY: the references and slices are valid for their whole types, and a mutable one overlaps no other.
    unsafe { fq_caller_schedule_prep(caller) }
}

pub(crate) fn caller_take(caller: &mut fq_caller, kind: u32) -> u32 {
    // SAFETY: the references and slices are valid for their whole types, and a mutable one overlaps no other.
    unsafe { fq_caller_take(caller, kind) }
}

pub(crate) fn caller_busy_take(caller: &mut fq_caller) -> u32 {
    // SAFETY: the references and slices are valid for their whole types, and a mutable one overlaps no other.
    unsafe { fq_caller_busy_take(caller) }
}

pub(crate) fn caller_set_threaded(caller: &mut fq_caller, threaded: bool) -> u32 {
    // SAFETY: the references and slices are valid for their whole types, and a mutable one overlaps no other.
    unsafe { fq_caller_set_threaded(caller, threaded) }
}

pub(crate) fn caller_hand(caller: &mut fq_caller, kind: u32) -> u32 {
    // SAFETY: the references and slices are valid for their whole types, and a mutable one overlaps no other.
    unsafe { fq_caller_hand(caller, kind) }
}

pub(crate) fn caller_poll(
    caller: &mut fq_caller,
    weight: usize,
    out: &mut [fq_packet],
    count: &mut usize,
) -> u32 {
    // SAFETY: the references and slices are valid for their whole types, and a mutable one overlaps no other.
    unsafe { fq_caller_poll(caller, weight, out.as_mut_ptr(), out.len(), count) }
}

pub(crate) fn caller_requeue(caller: &mut fq_caller) -> u32 {
    // SAFETY: the references and slices are valid for their whole types, and a mutable one overlaps no other.
    unsafe { fq_caller_requeue(caller) }
}

pub(crate) fn caller_complete(caller: &mut fq_caller) -> u32 {
    // SAFETY: the references and slices are valid for their whole types, and a mutable one overlaps no other.
    unsafe { fq_caller_complete(caller) }
}

pub(crate) fn caller_complete_done(caller: &mut fq_caller) -> u32 {
    // SAFETY: the references and slices are valid for their whole types, and a mutable one overlaps no other.
    unsafe { fq_caller_complete_done(caller) }
}

pub(crate) fn caller_busy_stop(caller: &mut fq_caller) -> u32 {
    // SAFETY: the references and slices are valid for their whole types, and a mutable one overlaps no other.
    unsafe { fq_caller_busy_stop(caller) }
}

pub(crate) fn caller_look(caller: &fq_caller, word: &mut u64) -> u32 {
    // SAFETY: the references and slices are valid for their whole types, and a mutable one overlaps no other.
    unsafe { fq_caller_look(caller, word) }
}

pub(crate) fn caller_count_sized(caller: &fq_caller, answers: &mut fq_answers) -> u32 {
    // SAFETY: the references and slices are valid for their whole types, and a mutable one overlaps no other.
    unsafe { fq_caller_count_sized(caller, answers) }
}

pub(crate) fn caller_hand_again(caller: &mut fq_caller, next: &mut u32) -> u32 {
    // SAFETY: the references and slices are valid for their whole types, and a mutable one overlaps no other.
    unsafe { fq_caller_hand_again(caller, next) }
}

pub(crate) fn caller_end(caller: &mut fq_caller, full: bool, next: &mut u32) -> u32 {
    // SAFETY: the references and slices are valid for their whole types, and a mutable one overlaps no other.
    unsafe { fq_caller_end(caller, full, next) }
}

pub(crate) fn control_enable(control: &mut fq_control, threaded: bool) -> u32 {
    // SAFETY: the references and slices are valid for their whole types, and a mutable one overlaps no other.
    unsafe { fq_control_enable(control, threaded) }
}

pub(crate) fn control_mark(control: &mut fq_control) -> u32 {
    // SAFETY: the references and slices are valid for their whole types, and a mutable one overlaps no other.
    unsafe { fq_control_mark(control) }
}

pub(crate) fn control_try_take(control: &mut fq_control) -> u32 {
    // SAFETY: the references and slices are valid for their whole types, and a mutable one overlaps no other.
    unsafe { fq_control_try_take(control) }
}

pub(crate) fn control_step(control: &mut fq_control, on: bool, threaded: bool) -> u32 {
    // SAFETY: the references and slices are valid for their whole types, and a mutable one overlaps no other.
    unsafe { fq_control_step(control, on, threaded) }
}

pub(crate) fn control_has(control: &fq_control, caller: &fq_caller) -> u32 {
    // SAFETY: the references and slices are valid for their whole types, and a mutable one overlaps no other.
    unsafe { fq_control_has(control, caller) }
}

pub(crate) fn list_new(list: &mut fq_list) -> u32 {
    // SAFETY: the references and slices are valid for their whole types, and a mutable one overlaps no other.
    unsafe { fq_list_new(list) }
}

pub(crate) fn list_push(list: &mut fq_list, id: u32) -> u32 {
    // SAFETY: the references and slices are valid for their whole types, and a mutable one overlaps no other.
    unsafe { fq_list_push(list, id) }
}

pub(crate) fn list_remove(list: &mut fq_list, id: u32) -> u32 {
    // SAFETY: the references and slices are valid for their whole types, and a mutable one overlaps no other.
    unsafe { fq_list_remove(list, id) }
}

pub(crate) fn list_len(list: &fq_list, len: &mut u32) -> u32 {
    // SAFETY: the references and slices are valid for their whole types, and a mutable one overlaps no other.
    unsafe { fq_list_len(list, len) }
}

pub(crate) fn run_begin(list: &mut fq_list, budget: u32, weight: u32, window: u32) -> u32 {
    // SAFETY: the references and slices are valid for their whole types, and a mutable one overlaps no other.
    unsafe { fq_run_begin(list, budget, weight, window) }
}

pub(crate) fn run_next(list: &mut fq_list, id: &mut u32) -> u32 {
    // SAFETY: the references and slices are valid for their whole types, and a mutable one overlaps no other.
    unsafe { fq_run_next(list, id) }
}

pub(crate) fn run_polled(list: &mut fq_list, work: u32, next: u32) -> u32 {
    // SAFETY: the references and slices are valid for their whole types, and a mutable one overlaps no other.
    unsafe { fq_run_polled(list, work, next) }
}

pub(crate) fn run_end_sized(list: &mut fq_list, report: &mut fq_run_report) -> u32 {
    // SAFETY: the references and slices are valid for their whole types, and a mutable one overlaps no other.
    unsafe { fq_run_end_sized(list, report) }
}

pub(crate) fn driver_new_salted(
    driver: &mut fq_driver,
    devices: u32,
    budget: u32,
    weight: u32,
    window: u32,
    salt: u16,
) -> u32 {
    // SAFETY: the references and slices are valid for their whole types, and a mutable one overlaps no other.
    unsafe { fq_driver_new_salted(driver, devices, budget, weight, window, salt) }
}

pub(crate) fn driver_open(driver: &mut fq_driver, device: u32) -> u32 {
    // SAFETY: the references and slices are valid for their whole types, and a mutable one overlaps no other.
    unsafe { fq_driver_open(driver, device) }
}

pub(crate) fn driver_stop(driver: &mut fq_driver, device: u32) -> u32 {
    // SAFETY: the references and slices are valid for their whole types, and a mutable one overlaps no other.
    unsafe { fq_driver_stop(driver, device) }
}

pub(crate) fn driver_turn(driver: &mut fq_driver, interrupts: u64, todo: &mut fq_todo) -> u32 {
    // SAFETY: the references and slices are valid for their whole types, and a mutable one overlaps no other.
    unsafe { fq_driver_turn(driver, interrupts, todo) }
}

pub(crate) fn driver_interrupt(driver: &mut fq_driver, device: u32) -> u32 {
    // SAFETY: the references and slices are valid for their whole types, and a mutable one overlaps no other.
    unsafe { fq_driver_interrupt(driver, device) }
}

pub(crate) fn driver_next(driver: &mut fq_driver, todo: &mut fq_todo) -> u32 {
    // SAFETY: the references and slices are valid for their whole types, and a mutable one overlaps no other.
    unsafe { fq_driver_next(driver, todo) }
}

pub(crate) fn driver_done(driver: &mut fq_driver, todo: &fq_todo) -> u32 {
    // SAFETY: the references and slices are valid for their whole types, and a mutable one overlaps no other.
    unsafe { fq_driver_done(driver, todo) }
}

pub(crate) fn driver_step(driver: &mut fq_driver, todo: &mut fq_todo) -> u32 {
    // SAFETY: the references and slices are valid for their whole types, and a mutable one overlaps no other.
    unsafe { fq_driver_step(driver, todo) }
}

pub(crate) fn driver_timer(driver: &mut fq_driver, device: u32) -> u32 {
    // SAFETY: the references and slices are valid for their whole types, and a mutable one overlaps no other.
    unsafe { fq_driver_timer(driver, device) }
}

pub(crate) fn driver_set_sized(
    driver: &mut fq_driver,
    device: u32,
    settings: &fq_device_settings,
) -> u32 {
    // SAFETY: the references and slices are valid for their whole types, and a mutable one overlaps no other.
    unsafe { fq_driver_set_sized(driver, device, settings) }
}

pub(crate) fn driver_end_run(driver: &mut fq_driver) -> u32 {
    // SAFETY: the references and slices are valid for their whole types, and a mutable one overlaps no other.
    unsafe { fq_driver_end_run(driver) }
}

pub(crate) fn driver_show_sized(
    driver: &fq_driver,
    device: u32,
    shown: &mut fq_device_shown,
) -> u32 {
    // SAFETY: the references and slices are valid for their whole types, and a mutable one overlaps no other.
    unsafe { fq_driver_show_sized(driver, device, shown) }
}

pub(crate) fn replay_sized(
    settings: &fq_settings,
    trace: &[u8],
    report: &mut [u8],
    replayed: &mut fq_replayed,
) -> u32 {
    // SAFETY: the references and slices are valid for their whole types, and a mutable one overlaps no other.
    unsafe {
        fq_replay_sized(
            settings,
            trace.as_ptr(),
            trace.len(),
            report.as_mut_ptr(),
            report.len(),
            replayed,
        )
    }
}

pub(crate) fn raise_sized(
    settings: &fq_settings,
    restarts: u32,
    trace: &[u8],
    out: &mut [u8],
    replayed: &mut fq_replayed,
) -> u32 {
    // SAFETY: the references and slices are valid for their whole types, and a mutable one overlaps no other.
    unsafe {
        fq_raise_sized(
            settings,
            restarts,
            trace.as_ptr(),
            trace.len(),
            out.as_mut_ptr(),
            out.len(),
            replayed,
        )
    }
}

pub(crate) fn machine_default_sized(settings: &mut fq_machine_settings) -> u32 {
    // SAFETY: the references and slices are valid for their whole types, and a mutable one overlaps no other.
    unsafe { fq_machine_default_sized(settings) }
}

pub(crate) fn machine_sized(
    settings: &fq_machine_settings,
    arrivals: &[u8],
    report: &mut [u8],
    ran: &mut fq_machine_ran,
) -> u32 {
    // SAFETY: the references and slices are valid for their whole types, and a mutable one overlaps no other.
    unsafe {
        fq_machine_sized(
            settings,
            arrivals.as_ptr(),
            arrivals.len(),
            report.as_mut_ptr(),
            report.len(),
            ran,
        )
    }
}
