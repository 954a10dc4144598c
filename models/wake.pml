/* How the threads of run_workers sleep and wake: WORKERS workers, of which the first THREADS have a thread of their instance's own,
   and POLLERS pollers, each with a list of its own. A line names the crate's file and the function that it stands for, unless it only
   counts; tests/models.sh checks that these functions, and all that they call, are as they were when the model was last read beside
   them (stands_for.txt).

   Left out, so that the states are few: a waiting call that tries again is one step (waiting.pml has these loops); the window of a list
   is 1; a ring has room for all packets; memory is sequentially consistent; memory is never refused.
   FAULT plants one: 1 a thread that isn't woken, 2 a wake before its push, 3 a waker that is never closed, 4 a hand-on without a
   wake, 5 a refused start that workers don't see, 6 a poller that never started is waited for: a deadlock, 7 a completion that drops
   MISSED, 8 an enable that doesn't restore THREADED, 9 a thread whose queue is closed before its instance is disabled, 10 a push
   before its hand-over, 11 pollers that are waited for before their queues are closed: a deadlock. */
#ifndef WORKERS
#define WORKERS 1
#endif
#ifndef POLLERS
#define POLLERS 1
#endif
#ifndef THREADS
#define THREADS 1
#endif
#ifndef ACTS
#define ACTS 3                  /* of worker 0 */
#endif
#ifndef OTHER_ACTS
#define OTHER_ACTS ACTS         /* of each other worker */
#endif
#ifndef WEIGHT
#define WEIGHT 1                /* packets of a poll, at most */
#endif
#ifndef WINDOW
#define WINDOW 2                /* polls in a turn of the thread */
#endif
#ifndef FAULT
#define FAULT 0
#endif
#define PLACES 4
#define NOBODY 255
#define LIST_OF(number) ((number) % POLLERS)    /* also the waker of its poller */
#define THREAD(number) (POLLERS + (number))     /* the waker of its thread */
#define BY_THREAD(number) ((number) < THREADS && threaded[number])

mtype = { EMPTY, PARKED, NOTIFIED };    /* a parker's word */
mtype = { AWAY, LISTED, TO_THREAD };    /* the mark of an instance: none, QUEUED, TO_THREAD */

mtype word[POLLERS + THREADS] = EMPTY;
bool asleep[POLLERS + THREADS], closed[POLLERS + THREADS];
bool unpolled, refused, stopped;
bool sched[WORKERS], missed[WORKERS], disabling[WORKERS], npsvc[WORKERS], threaded[WORKERS], asked[WORKERS];
mtype mark[WORKERS] = AWAY;
byte ring[WORKERS];
byte slot[POLLERS * PLACES]; bool published[POLLERS * PLACES]; byte head[POLLERS], tail[POLLERS];
byte workers_ended, pollers_ended, threads_ended;
bool all_ended;

/* ---- wakers, parkers and the list */

inline unpark(waker) {
    atomic { was_parked = (word[waker] == PARKED); word[waker] = NOTIFIED };      /* kit crossbeam_utils/sync/parker/ruled unpark_as */
    if :: was_parked -> atomic { asleep[waker] = false; was_parked = false } :: else fi  /* kit crossbeam_utils/sync/parker/ruled unpark_as */
}
inline wake(waker) { unpark(waker) }                                              /* poll_engine/setup/signals wake */
inline close(waker) { closed[waker] = true; unpark(waker) }                           /* poll_engine/setup/signals close */
inline wait(waker) {                                                             /* poll_engine/setup/signals wait */
    atomic { if :: word[waker] == EMPTY -> word[waker] = PARKED :: else fi };     /* kit crossbeam_utils/sync/parker/ruled park_as */
    do
    :: atomic { word[waker] == NOTIFIED -> word[waker] = EMPTY; break }           /* kit crossbeam_utils/sync/parker/ruled park_as */
    :: atomic { word[waker] != NOTIFIED -> skip };                               /* kit crossbeam_utils/sync/parker/ruled park_as */
       atomic { if :: word[waker] == PARKED -> asleep[waker] = true :: else fi }; /* kit crossbeam_utils/sync/parker/ruled park_as */
       !asleep[waker]                                                            /* kit crossbeam_utils/sync/parker/ruled park_as */
    od
}
#define AT(list, end) ((list) * PLACES + (end) % PLACES)
inline push(number) {                                                           /* poll_engine/list_in push */
    d_step { assert((tail[LIST_OF(number)] - head[LIST_OF(number)] + 2 * PLACES) % (2 * PLACES) < PLACES);
        at = AT(LIST_OF(number), tail[LIST_OF(number)]); tail[LIST_OF(number)] = (tail[LIST_OF(number)] + 1) % (2 * PLACES); slot[at] = number };  /* kit crossbeam_queue/array_queue/ruled push_as */
    atomic { published[at] = true; at = 0 }                                     /* kit crossbeam_queue/array_queue/ruled push_as */
}
inline hand_to_list(number) {                                                   /* poll_engine/worker hand_to_list */
    if
    :: FAULT == 10 -> push(number); mark[number] = LISTED; wake(LIST_OF(number))
    :: else -> mark[number] = LISTED;                                           /* napi_calls/granted hand */
       if
       :: FAULT == 2 -> wake(LIST_OF(number)); push(number)
       :: else -> push(number); wake(LIST_OF(number))                           /* poll_engine/outbox queue */
       fi
    fi
}

/* ---- a worker */

/* A request that isn't refused is `asked`, unless the instance is off, until it is polled. */
inline schedule(number) {
    atomic { granted = !disabling[number] && !sched[number]; asked[number] = asked[number] || (!disabling[number] && !npsvc[number]);
        missed[number] = missed[number] || (!disabling[number] && sched[number]); sched[number] = sched[number] || !disabling[number] }   /* napi_calls/caller schedule */
}
inline turn_off(number) {
    if
    :: is_on ->                                                                 /* poll_engine/worker turn_off */
       disabling[number] = true;                                                /* napi_calls/control mark */
       atomic { !sched[number] && !npsvc[number] -> assert(!asked[number]);
           sched[number] = true; npsvc[number] = true; threaded[number] = false };      /* napi_calls/control disable_pausing */
       disabling[number] = false; is_on = false                                 /* napi_calls/control try_take_between */
    :: else
    fi
}
inline turn_on(number) {
    if
    :: !is_on -> atomic { assert(!threaded[number] || setting); sched[number] = false; npsvc[number] = false; is_on = true;
           threaded[number] = setting && FAULT != 8 }                           /* poll_engine/worker turn_on */
    :: else
    fi
}
proctype Worker(byte number) {
    byte act, at; bool was_parked, granted, is_on, setting;
    turn_on(number);                                                            /* poll_engine/worker run */
    do
    :: act < (number == 0 -> ACTS : OTHER_ACTS) ->                              /* poll_engine/worker make_acts */
       if :: unpolled && FAULT != 5 || refused || stopped -> break :: else fi;  /* poll_engine/setup/context stop */
       if :: true :: stopped = true; break fi;                                  /* poll_engine/worker stop_before */
       if
       :: ring[number] = ring[number] + 1;                                      /* poll_engine/worker make_act */
          schedule(number);                                                     /* poll_engine/worker interrupt */
          if
          :: granted && BY_THREAD(number) ->                                    /* poll_engine/worker hand_over */
             mark[number] = TO_THREAD;                                          /* napi_calls/granted hand */
             if :: FAULT != 1 -> wake(THREAD(number)) :: else fi                /* poll_engine/worker hand_over */
          :: granted && !BY_THREAD(number) ->                                   /* poll_engine/worker hand_over */
             assert(number >= THREADS || !is_on || !setting);                   /* a packet of a threaded instance that is on */
             hand_to_list(number)
          :: else                                                               /* poll_engine/worker interrupt */
          fi
       :: is_on -> turn_off(number)                                             /* poll_engine/worker make_act */
       :: !is_on -> turn_on(number)                                             /* poll_engine/worker make_act */
       :: number < THREADS -> atomic { setting = !setting; threaded[number] = setting } /* poll_engine/worker make_act */
       fi;
       act++
    :: else -> break
    od;
    if :: number < THREADS && FAULT == 9 -> close(THREAD(number)) :: else fi;
    turn_off(number);                                                           /* poll_engine/worker run */
    if :: number < THREADS && FAULT != 3 && FAULT != 9 -> close(THREAD(number)) :: else fi; /* poll_engine/worker run */
    workers_ended++
}

/* ---- the poller and the thread */

/* A poll begins: what was asked before it is polled, and `whole` tells whether it took its weight. */
inline take_packets(number) {
    asked[number] = false;
    whole = (ring[number] >= WEIGHT);
    ring[number] = (whole -> ring[number] - WEIGHT : 0)
}
inline complete(number) {
    atomic { again = missed[number] && FAULT != 7; missed[number] = false; sched[number] = again }      /* napi_calls/polling complete */
}
proctype Poller(byte list) {
    byte at, number, in_hand = NOBODY; bool was_parked, is_last, again, whole, snoozed;
    if :: unpolled -> goto ended :: else fi;                                    /* poll_engine/poller run */
    if :: true :: stopped = true fi;                                            /* poll_engine/poller run */
    do
    :: atomic { is_last = closed[list]; number = NOBODY; again = false; whole = false };    /* poll_engine/poller serve */
       if
       :: in_hand != NOBODY -> number = in_hand; in_hand = NOBODY               /* poll_engine/shared splice */
       :: in_hand == NOBODY && head[list] == tail[list]                         /* poll_engine/pops pop */
       :: in_hand == NOBODY && head[list] != tail[list] && published[AT(list, head[list])] ->      /* poll_engine/pops pop */
          d_step { at = AT(list, head[list]); number = slot[at]; slot[at] = 0; published[at] = false; head[list] = (head[list] + 1) % (2 * PLACES); at = 0 }  /* kit crossbeam_queue/array_queue/ruled pop_as */
       fi;
       if
       :: atomic { number != NOBODY ->                                          /* poll_engine/list_poller turn */
             assert(mark[number] == LISTED); mark[number] = AWAY };             /* poll_engine/handle poll */
          d_step { take_packets(number) };                                      /* poll_shared/shared_instance poll_instance */
          if
          :: whole && !disabling[number] -> atomic { mark[number] = LISTED; in_hand = number }     /* poll_engine/shared put_back */
          :: else ->
             complete(number);                                                  /* poll_shared/shared_instance poll_instance */
             if
             :: again && BY_THREAD(number) -> mark[number] = TO_THREAD; wake(THREAD(number))      /* poll_engine/handle poll */
             :: again && !BY_THREAD(number) -> mark[number] = LISTED; push(number)      /* poll_engine/shared push */
             :: else                                                            /* poll_engine/handle poll */
             fi
          fi;
          snoozed = false                                                       /* poll_engine/setup/signals reset */
       :: number == NOBODY && is_last -> break                                  /* poll_engine/poller serve */
       :: atomic { number == NOBODY && !is_last && !snoozed -> snoozed = true } /* poll_engine/setup/signals wait */
       :: number == NOBODY && !is_last && snoozed -> wait(list); snoozed = false        /* poll_engine/poller serve */
       fi
    od;
    assert(in_hand == NOBODY && head[list] == tail[list]);
ended:
    pollers_ended++
}
proctype Thread(byte number) {
    byte at, polls; bool was_parked, is_last, again, found, has, repoll, whole, snoozed;
    if :: unpolled -> goto ended :: else fi;                                    /* poll_engine/poller run */
    if :: true :: stopped = true fi;                                            /* poll_engine/poller run */
    do
    :: atomic { is_last = closed[THREAD(number)]; found = false; repoll = false; has = false; again = false; whole = false; polls = 0 };  /* poll_engine/poller serve */
       do
       :: atomic { polls < WINDOW ->
             has = repoll || mark[number] == TO_THREAD;                         /* poll_shared/shared_instance poll_instance_by_thread */
             if :: has && !repoll -> mark[number] = AWAY :: else fi };          /* poll_shared/shared_instance poll_instance_by_thread */
          if :: !has -> break :: has fi;
          d_step { found = true; polls++; take_packets(number) };               /* poll_shared/shared_instance poll_instance_by_thread */
          if
          :: atomic { whole && !disabling[number] -> repoll = true }      /* poll_shared/shared_instance poll_instance_by_thread */
          :: else ->
             repoll = false;
             complete(number);                                                  /* poll_shared/shared_instance poll_instance_by_thread */
             if
             :: again && threaded[number] -> mark[number] = TO_THREAD           /* poll_shared/shared_instance poll_instance_by_thread */
             :: again && !threaded[number] ->
                mark[number] = LISTED; push(number);                            /* poll_engine/thread_poller hand_on */
                if :: FAULT != 4 -> wake(LIST_OF(number)) :: else fi;           /* poll_engine/thread_poller hand_on */
                break
             :: else -> break
             fi
          fi
       :: polls == WINDOW -> break                                              /* poll_engine/thread_poller turn */
       od;
       if
       :: repoll ->
          mark[number] = LISTED; push(number);                                  /* poll_engine/thread_poller hand_on */
          if :: FAULT != 4 -> wake(LIST_OF(number)) :: else fi                  /* poll_engine/thread_poller hand_on */
       :: else
       fi;                                                                      /* poll_engine/thread_poller hand_on */
       if
       :: found -> snoozed = false                                              /* poll_engine/setup/signals reset */
       :: !found && is_last -> break                                            /* poll_engine/poller serve */
       :: atomic { !found && !is_last && !snoozed -> snoozed = true }           /* poll_engine/setup/signals wait */
       :: !found && !is_last && snoozed -> wait(THREAD(number)); snoozed = false        /* poll_engine/poller serve */
       fi
    od;
ended:
    threads_ended++
}

/* ---- the run: a start that is refused sets its flag first, and then the task is run where it was begun */

init {                                                                          /* poll_engine/driving drive */
    byte number; bool was_parked;
    d_step { number = 0; do :: number < WORKERS -> sched[number] = true; npsvc[number] = true; number++ :: else -> break od; number = 0 };  /* poll_engine/setup/opening open_all */
    do
    :: number < THREADS ->
       if :: run Thread(number) :: unpolled = true; threads_ended++ fi;         /* poll_engine/tasks spawn */
       number++
    :: else -> break                                                            /* poll_engine/poller is_idle */
    od;
    number = 0;
    do
    :: number < POLLERS ->
       if :: run Poller(number) :: unpolled = true; pollers_ended = pollers_ended + (FAULT != 6) fi;    /* poll_engine/tasks spawn */
       number++
    :: else -> break
    od;
    number = 0;
    do
    :: number < WORKERS ->                                                      /* poll_engine/tasks spawn_all */
       if :: run Worker(number) :: refused = true; run Worker(number); workers_ended == number + 1 fi; /* poll_engine/tasks spawn */
       number++
    :: else -> break
    od;
    workers_ended == WORKERS;                                                   /* poll_engine/tasks join_all */
    if :: FAULT == 11 -> pollers_ended == POLLERS :: else fi;
    number = 0;
    do :: number < POLLERS -> close(number); number++ :: else -> break od;       /* poll_engine/driving close_all */
    pollers_ended == POLLERS && threads_ended == THREADS;                       /* poll_engine/tasks join_all */
    number = 0;
    do
    :: number < WORKERS -> assert(mark[number] == AWAY && sched[number] && npsvc[number] && !asked[number]); number++
    :: else -> break
    od;
    all_ended = true
}

ltl ends { <> all_ended }
#define POLLED(number) ([] ((mark[number] == LISTED) -> <> (mark[number] != LISTED)))
ltl polled { POLLED(0) && POLLED(WORKERS - 1) && [] ((mark[0] == TO_THREAD) -> <> (mark[0] != TO_THREAD)) }
ltl asked_is_polled { [] (asked[0] -> <> !asked[0]) && [] (asked[WORKERS - 1] -> <> !asked[WORKERS - 1]) }
