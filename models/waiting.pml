/* The loops of the waiting forms against each other, on the word of one instance: two schedulers, a poller, and a controller
   that disables and enables. A line names the crate's file and the function that it stands for, unless it only counts;
   tests/models.sh checks that these functions are as they were when the model was last read beside them (stands_for.txt).

   ENDLESS 1: the schedulers ask for polls for ever, each poll may give its whole weight, and each disable has to end.
   ENDLESS 0: each scheduler asks ASKS times, REPOLLS polls give their whole weight, and all have to end.
   A request is `asking` until it is decided: it is refused because a disable is pending, or the word has it. What the word has is
   `asked` until a poll begins or a disable takes the instance, and SCHED or MISSED is set all that time. Of an instance that is off it
   is `kept` only: it is polled after the next request that follows the enable (MISSED).
   Left out, so that the states are few: THREADED, busy polling, and which packets a poll gives; memory is sequentially consistent.
   FAULT plants one: 1 a schedule that ignores DISABLE, 2 a repoll that does, 3 a completion by a load and a store, 4 a completion
   that drops MISSED, 5 a schedule that gives up after a lost exchange, 6 an enable by a load and a store. */
#ifndef ENDLESS
#define ENDLESS 0
#endif
#ifndef ASKS
#define ASKS 2
#endif
#ifndef DISABLES
#define DISABLES 2
#endif
#ifndef REPOLLS
#define REPOLLS 2
#endif
#ifndef FAULT
#define FAULT 0
#endif
#ifndef TRACKED
#define TRACKED 0               /* 1: follows requests, for the property `requests` */
#endif
#define SCHED 1
#define MISSED 2
#define DISABLE 4
#define NPSVC 8
#define QUEUED 16

byte word = 9;                  /* napi_calls/instance new */
bool is_polled, is_controlled = true;
bool asking[2], asked, kept;
byte schedulers_ended; bool closed, poller_ended, controller_ended;

/* Moves the word from `seen` to `wanted`, and then `owner` is so; `won` tells whether nobody was faster. */
#define exchange(wanted, owner) atomic { won = (word == seen); if :: won -> word = wanted; owner :: else fi }    /* kit atomic_table/steps compare_exchange */

inline decide(me) {
    asking[me] = false;
    if :: TRACKED && is_controlled -> kept = true :: TRACKED && !is_controlled -> asked = true :: !TRACKED fi
}
inline begin_poll() { is_polled = true; asked = false; kept = false }

proctype Scheduler(bit me) {
    byte asks, seen; bool won;
    do
    :: ENDLESS || asks < ASKS ->
       asking[me] = TRACKED;
       do
       :: seen = word;                                                          /* napi_calls/caller try_schedule_between */
          if
          :: (seen & DISABLE) && FAULT != 1 -> asking[me] = false; break        /* napi_calls/caller try_schedule_between */
          :: else ->
             exchange(seen | SCHED | ((seen & SCHED) -> MISSED : 0), decide(me));       /* napi_calls/caller try_schedule_between */
             if
             :: won && !(seen & SCHED) ->
                atomic { assert(!is_polled && !is_controlled); word = word | QUEUED };  /* napi_calls/granted hand */
                break                                                           /* napi_calls/caller schedule */
             :: won && (seen & SCHED) -> break                                  /* napi_calls/caller schedule */
             :: !won && FAULT != 5                                              /* napi_calls/caller schedule */
             :: !won && FAULT == 5 -> break
             fi
          fi
       od;
       asks = (ENDLESS -> 0 : asks + 1)
    :: !ENDLESS && asks == ASKS -> break
    od;
    schedulers_ended++
}

proctype Poller() {
    byte seen, repolls; bool won, is_last, has_taken;
    do
    :: is_last = closed;                                                          /* poll_engine/poller serve */
       atomic { has_taken = (word & QUEUED) != 0; word = word & ~QUEUED;        /* napi_calls/caller take */
                if :: has_taken -> assert(!is_polled && !is_controlled); begin_poll() :: else fi };
       if
       :: !has_taken && is_last -> break                                        /* poll_engine/poller serve */
       :: !has_taken && !is_last                                                /* poll_engine/poller serve */
       :: has_taken ->
          if
          :: (ENDLESS || repolls < REPOLLS) && (!(word & DISABLE) || FAULT == 2) ->     /* poll_shared/shared_instance poll_instance */
             atomic { is_polled = false; word = word | QUEUED; repolls = (ENDLESS -> 0 : repolls + 1) } /* napi_calls/polling requeue */
          :: true ->
             do
             :: seen = word;                                                    /* napi_calls/polling try_complete_between */
                if
                :: FAULT == 3 -> atomic { word = ((seen & MISSED) -> (seen & ~MISSED) : (seen & ~SCHED)); is_polled = false; won = true }
                :: FAULT == 4 -> exchange(seen & ~(SCHED | MISSED), is_polled = false); seen = 0
                :: FAULT != 3 && FAULT != 4 -> exchange(((seen & MISSED) -> (seen & ~MISSED) : (seen & ~SCHED)), is_polled = false)    /* napi_calls/polling try_complete_between */
                fi;
                if
                :: won && (seen & MISSED) -> word = word | QUEUED; break        /* napi_calls/granted hand */
                :: won && !(seen & MISSED) -> break                             /* napi_calls/polling complete */
                :: !won                                                         /* napi_calls/polling complete */
                fi
             od
          fi
       fi
    od;
    poller_ended = true
}

proctype Controller() {
    byte disables, seen; bool won;
    do
    :: ENDLESS || disables <= DISABLES ->
       do
       :: seen = word;                                                          /* napi_calls/control try_enable_between */
          if
          :: FAULT == 6 -> atomic { word = seen & ~(SCHED | NPSVC); is_controlled = false; won = true }
          :: FAULT != 6 -> exchange(seen & ~(SCHED | NPSVC), is_controlled = false)     /* napi_calls/control try_enable_between */
          fi;
          if :: won -> break :: !won fi                                         /* napi_calls/control enable */
       od;
       atomic { word = word | DISABLE };                                        /* napi_calls/control mark */
marked:
       do
       :: seen = word;                                                          /* napi_calls/control try_take_between */
          if
          :: seen & (SCHED | NPSVC)                                             /* napi_calls/control disable_pausing */
          :: else ->
             exchange(seen | SCHED | NPSVC, is_controlled = true; asked = false; kept = false);  /* napi_calls/control try_take_between */
             if :: won -> break :: !won fi                                      /* napi_calls/control disable_pausing */
          fi
       od;
       assert(!is_polled && !(word & QUEUED) && (word & DISABLE));              /* napi_calls/control try_take_between */
       atomic { word = word & ~DISABLE };                                       /* napi_calls/control try_take_between */
       disables = (ENDLESS -> 0 : disables + 1)
    :: !ENDLESS && disables > DISABLES -> break
    od;
    controller_ended = true
}

init {
    atomic { run Scheduler(0); run Scheduler(1); run Poller(); run Controller() };
    schedulers_ended == 2 && controller_ended;
    closed = true;                                                                /* poll_engine/setup/signals close */
    poller_ended;
    assert(word == (SCHED | NPSVC) || word == (SCHED | NPSVC | MISSED))
}

#define REMEMBERED ((word & (SCHED | MISSED)) != 0)
ltl requests { [] (asking[0] -> <> !asking[0]) && [] (asking[1] -> <> !asking[1]) && [] (asked -> <> !asked) && [] ((asked || kept) -> REMEMBERED) }
ltl ends { <> (poller_ended && controller_ended) }
ltl taken { [] (((word & DISABLE) != 0) -> <> ((word & DISABLE) == 0)) }
