/* A driver of one device whose interrupts come in a thread of their own, as in examples/c/edge.c and examples/driver/driver.h: the card,
   the driver's thread, and a user who stops the device and opens it again. The card interrupts for each packet that arrives while it
   isn't masked, and forgets those that arrive while it is (edges). An interrupt sets the bit of a word, and wakes the driver's thread if
   the word was 0. That thread takes the bit and reports it, makes a step (fq_driver_step), and does what that says at the card, until
   there is nothing to do; then it waits. A fetch of fewer packets than the weight may also unmask the card and look at it. After a poll with
   packets DEFER completions defer the interrupt: the driver's thread sets a timer, and another process lets it expire. A line names the crate's file and the function that it stands for, unless it only counts or is
   the program's own.

   Only one thread calls the driver, so each call is one step. Left out, so that the states are few: other devices, budget and window;
   memory is sequentially consistent, as the fence between the unmask and the look makes it.
   FAULT plants one: 1 no look after the unmask, 2 a look that is made before the unmask, 3 a bit that wakes nobody, 4 a wake that comes
   during the work and is forgotten, 5 an interrupt that isn't reported, 6 a mask that is made after its report, 7 bits that are taken by
   a load and a store. */
#ifndef PACKETS
#define PACKETS 3
#endif
#ifndef STOPS
#define STOPS 1
#endif
#ifndef WEIGHT
#define WEIGHT 2
#endif
#ifndef DEFER
#define DEFER 1
#endif
#ifndef FAULT
#define FAULT 0
#endif

mtype = { closed, masking, closing, listed, unmasking, looking, armed, deferring, deferred };   /* the stages of a device */
mtype = { sleep, mask, unmask, look, fetch, set_timer };                        /* what is due */
mtype = { rearm_no, rearm_empty, rearm_more };                                  /* whether a fetch unmasked the card and looked at it */

mtype stage = closed, due = sleep, rearm = rearm_no;
bool timer_set, timer_ended;
byte deferrals;
bool stopping, missed, is_said;         /* is_said: `due` isn't reported yet, and still due */
byte arrived, taken, found;             /* packets; found: what a look or a fetch reports */
bool masked = true, bit_set, wakes = true, wanted = true, user_ended;

#define CHORE ((stage == masking || stage == closing) -> mask : (stage == unmasking -> unmask : (stage == looking -> look : (stage == listed -> fetch : (stage == deferring -> set_timer : sleep)))))   /* driver_core/device chore */

inline keep_if_due() { is_said = is_said && due == CHORE }                      /* driver_core/said still_due */

inline interrupt() {
    if
    :: stage == closed || (stage == masking || stage == listed) && !stopping -> missed = true   /* driver_core/device interrupted */
    :: stage == closing || (stage == masking || stage == listed) && stopping                    /* driver_core/device interrupted */
    :: stage == unmasking || stage == looking || stage == armed -> stage = masking              /* driver_core/device interrupted */
    :: stage == deferring || stage == deferred -> stage = masking               /* driver_core/device interrupted */
    fi;
    keep_if_due()                                                               /* driver_core/driver interrupt */
}

inline timer() {
    if
    :: stage == deferring || stage == deferred -> stage = listed                /* driver_core/device timed_out */
    :: stage == unmasking || stage == looking || stage == armed -> stage = masking              /* driver_core/device timed_out */
    :: stage == closed || stage == closing || stage == masking || stage == listed               /* driver_core/device timed_out */
    fi;
    keep_if_due()                                                               /* driver_core/driver timer */
}

inline open_or_stop() {
    if
    :: wanted && stage == closed -> stage = unmasking                           /* driver_core/device opened */
    :: wanted && stage != closed                                                /* driver_core/driver open */
    :: !wanted && (stage == masking || stage == listed) -> stopping = true      /* driver_core/device stopped */
    :: !wanted && (stage == unmasking || stage == looking || stage == armed) -> stage = closing /* driver_core/device stopped */
    :: !wanted && (stage == deferring || stage == deferred) -> stage = closing  /* driver_core/device stopped */
    :: !wanted && (stage == closed || stage == closing)                         /* driver_core/device stopped */
    fi;
    keep_if_due()                                                               /* driver_core/driver stop */
}

#define DEFERS (found > 0 -> DEFER > 0 : deferrals > 0)                           /* driver_core/pacing defers */

/* A poll that completes is counted. */
inline count() { deferrals = (found > 0 -> (DEFER > 0 -> DEFER - 1 : 0) : (deferrals > 0 -> deferrals - 1 : 0)) }     /* driver_core/pacing count */

inline report() {
    if
    :: !is_said                                                                 /* driver_core/driver done */
    :: is_said && due == mask -> stage = (stage == masking -> listed : closed)  /* driver_core/device masked */
    :: is_said && due == unmask -> stage = (FAULT == 1 -> armed : looking)      /* driver_core/device unmasked */
    :: is_said && due == look -> stage = (found > 0 -> masking : armed)         /* driver_core/device looked */
    :: is_said && due == set_timer -> stage = deferred                          /* driver_core/device timer_set */
    :: is_said && due == fetch && rearm != rearm_no ->                          /* driver_core/device polled */
       stage = ((missed || rearm == rearm_more && !stopping) -> masking : (stopping -> closing : armed));      /* driver_core/device rearmed */
       stopping = stopping && missed; missed = false; count()
    :: is_said && due == fetch && rearm == rearm_no && found == WEIGHT && !stopping             /* driver_core/device polled */
    :: is_said && due == fetch && rearm == rearm_no && !(found == WEIGHT && !stopping) ->       /* driver_core/device polled */
       if
       :: missed -> missed = false                                              /* driver_core/device completed */
       :: !missed -> stage = (stopping -> closed : (DEFERS -> deferring : unmasking)); stopping = false       /* driver_core/device completed */
       fi;
       count()
    fi;
    is_said = false; found = 0; rearm = rearm_no
}

inline ask() {
    if
    :: is_said                                                                  /* driver_core/driver last */
    :: !is_said -> due = CHORE; is_said = (due != sleep)                        /* driver_core/driver next */
    fi
}

active proctype Driver() {
    bool has_bit, is_late; byte before;
    do
    :: if
       :: bit_set || timer_ended
       :: !bit_set && !timer_ended ->
end_waits:
          wakes
       fi;
       if :: FAULT != 4 -> wakes = false :: FAULT == 4 fi;
       atomic { open_or_stop() };
       do
       :: if
          :: FAULT != 7 -> atomic { has_bit = bit_set; bit_set = false }
          :: FAULT == 7 -> has_bit = bit_set; bit_set = false
          fi;
          if :: has_bit && FAULT != 5 -> atomic { interrupt() } :: !has_bit || FAULT == 5 fi;
          if :: atomic { timer_ended -> timer_ended = false; timer() } :: !timer_ended fi;
          atomic { report(); ask() };                                           /* driver_core/driver step */
          if :: is_late -> masked = true; is_late = false :: is_late && due != sleep :: !is_late fi;
          if
          :: due == sleep -> break
          :: due == mask && FAULT != 6 -> masked = true
          :: due == mask && FAULT == 6 -> is_late = true
          :: due == unmask -> before = arrived - taken; masked = false
          :: due == look -> found = (FAULT == 2 -> before : arrived - taken)
          :: due == fetch -> atomic { found = (arrived - taken < WEIGHT -> arrived - taken : WEIGHT); taken = taken + found }
             if
             :: true
             :: found < WEIGHT -> masked = false; rearm = (arrived > taken -> rearm_more : rearm_empty)
             fi
          :: due == set_timer -> timer_set = true
          fi
       od;
       assert(stage == closed || stage == armed || stage == deferred && (timer_set || timer_ended));
       assert(masked == (stage == closed || stage == deferred));
       if :: FAULT == 4 -> wakes = false :: FAULT != 4 fi
    od
}

/* The timer expires; the driver's thread learns it later. */
active proctype Timer() {
end_expires:
    do
    :: atomic { timer_set -> timer_set = false; timer_ended = true; wakes = true }
    od
}

active proctype Card() {
    bool was_set;
    do
    :: arrived < PACKETS ->
       arrived++;
       if
       :: masked
       :: !masked ->
          atomic { was_set = bit_set; bit_set = true };
          if :: !was_set && FAULT != 3 -> wakes = true :: was_set || FAULT == 3 fi
       fi
    :: arrived == PACKETS -> break
    od
}

active proctype User() {
    byte stops;
    do
    :: stops < STOPS -> wanted = false; wakes = true; stage == closed; wanted = true; wakes = true; stops++
    :: stops == STOPS -> break
    od;
    user_ended = true
}

/* When no process can go on. */
active proctype End() {
    timeout;
    assert(user_ended);
    assert(taken == PACKETS);
    assert(stage == armed && !masked)
}

ltl ends { <> (user_ended && taken == PACKETS) }
