/* How worker threads send, wait, sleep and end (docs/THREADS.md): a model for spin, which tools/models/check searches.
 *
 * A worker is a process; the calling thread, which waits for them, is `init`. Beside each step stands the function of
 * crates/id_elements/src that it is of. A step touches once what workers share; what else stands in its `atomic` is the
 * worker's own, and so a burst is one step. Messages have nothing in them, and a letter is how many it has: one of one
 * message is in some inbox at the start, and events send SENDS messages more, at most 2 each, to any elements. After a
 * burst any letter may be sent or kept (with 3 workers each is sent), since whether it is full, or goes at once to a
 * worker that looks for letters, changes nothing else; a worker that can handle nothing more sends each. At any
 * event an element may have handled `steps` messages, or there may be a fault; any push may be refused. A thread may
 * begin at any time, after others, or never. A sleep ends by a wake; by its time, 20 milliseconds in the code, it ends
 * only where some worker has not begun or has given up, since else that would hide a lost wake.
 *
 * Searched for in all orders of the steps:
 * - deadlock: nothing moves, and not all have ended (an invalid end state);
 * - a run without end (a cycle: no step is marked as progress, and no fairness is asked for). Where there is neither,
 *   each run ends from each state, and no worker sleeps for ever, whether a letter waits in its inbox or none;
 * - as many letters done as sent, where they are added up, while a message is anywhere that may be handled (assert);
 * - messages that are lost when all have ended; or that are left and may be handled, though nothing cut the run short:
 *   no fault, no refusal, no worker that never began, none that gave up since another had not begun (assert).
 *
 * Mutants, which must be found wrong:
 * NO_WAKE         a push wakes nobody
 * EARLY_WAKE      a push looks at the flag before it puts the letter in
 * NO_SECOND_LOOK  a worker that has set its flag parks without another look
 * SLEEPS_ON       a worker sleeps while it has messages of its own
 * KEEPS_LETTERS   a worker that can handle nothing more sends no letters
 * LATE_LETTERS    it sends them when it has counted as done what it took out
 * SENT_FIRST      who adds up adds what was sent before what was done
 * NO_SUMS         nobody adds up
 * EARLY_SUMS      a worker adds up before it counts what it has done, and not behind that
 * LATE_COUNT      a letter is counted after it was put in
 * EARLY_DONE      letters are counted as done when they are taken out
 * SPENT_OWES      a worker whose element has handled `steps` counts nothing as done
 * SPENT_ENDS      it ends, and takes no letters out
 * QUIET_STOP      who stops all wakes nobody
 * NO_PATIENCE     an idle worker never gives up on those that have not begun
 * QUIET_END       a worker that gives up does not say so
 * HASTY           a worker gives up though all have begun and none has given up: the run ends, but work is left
 * NO_RESET        `looks` is not set to 0 where letters came, so that nobody adds up behind them
 *
 * Two that are harmless, and must not be found wrong:
 * NO_CLEAR        The flag is not cleared after a sleep. Then each push wakes, and a worker that comes to `sleep` parks
 *                 at once. But the look before that was made with the flag set, and so no wake is lost.
 * NO_RISE         The flag is not cleared where letters came. Then a worker may park without setting it again, but
 *                 `looks = 0` has it look at least once before that, and that look found the inbox empty.
 */

#ifndef WORKERS
#define WORKERS 2       /* 2 or 3 */
#endif
#ifndef SENDS
#define SENDS 3
#endif
#ifndef BURST
#define BURST 1         /* so many messages are handled in a round, 64 in worker.rt */
#endif
#ifndef TAKES
#define TAKES BURST     /* so many letters are taken out of the inbox, the same 64 there */
#endif
#define LOOKS 1         /* PAUSES and YIELDS, 104 in shared.rt */
#ifndef PATIENCE
#define PATIENCE 2      /* 20 there */
#endif

#if WORKERS == 2
#define KEEPS_NONE (letters[0] + letters[1] == 0)
#else
#define KEEPS_NONE (letters[0] + letters[1] + letters[2] == 0)
#endif
#define INCOMPLETE (begun < WORKERS || gave_up)  /* Shared::is_incomplete */

bool stopped, gave_up;                          /* Shared */
byte begun;
byte sent[WORKERS], done[WORKERS];              /* Counts */
bool sleeps[WORKERS];
bool token[WORKERS];                            /* Parker: whether it was unparked */
chan inbox[WORKERS] = [1 + SENDS] of { byte };  /* Door */
bool ended[WORKERS];                            /* whether the call on a thread has returned */

/* what no code has: messages in flight, those of elements that have handled `steps`, what events may still send, what
 * workers had at hand at their end, and whether something has cut the run short */
byte flying = 1, held, spare = SENDS, left;
bool cut;

inline wake() {                                 /* Shared::wake */
  if
#ifndef NO_WAKE
  :: sleeps[to] -> token[to] = true             /* Parker::unpark */
#endif
  :: else
  fi
}

inline post_all() {                             /* Worker::post_all */
  do
  :: atomic { to < WORKERS && letters[to] == 0 -> to++ }
#if WORKERS == 2
  :: atomic { to < WORKERS && letters[to] > 0 && goes -> to++ }  /* it is kept */
#endif
  :: atomic { to < WORKERS && letters[to] > 0;  /* post */
#ifndef LATE_COUNT
       sent[me]++                               /* count_sent */
#endif
     };
#ifdef EARLY_WAKE
     wake();
#endif
     if
     :: atomic { inbox[to]!letters[to] -> letters[to] = 0 }      /* Door::push */
     :: atomic { cut = true; goto halt }        /* refuse */
     fi;
#ifdef LATE_COUNT
     sent[me]++;
#endif
#ifndef EARLY_WAKE
     wake();
#endif
     to++
  :: atomic { to == WORKERS -> to = 0; break }
  od
}

#if WORKERS == 2
#define FOR_ALL(step) do :: atomic { i < WORKERS -> step; i++ } :: atomic { i == WORKERS -> i = 0; break } od
#else                                           /* a sum is one step, but the two are two */
#define FOR_ALL(step) atomic { do :: i < WORKERS -> step; i++ :: i == WORKERS -> i = 0; break od }
#endif

inline stop_if_done() {                         /* Shared::stop_if_done; `more`: so many more were done than sent */
#ifdef SENT_FIRST
  FOR_ALL(more = more - sent[i]);
#endif
  FOR_ALL(more = more + done[i]);
#ifndef SENT_FIRST
  FOR_ALL(more = more - sent[i]);
#endif
  if
  :: atomic { more == 1 -> assert(flying == held); goto halt }   /* the one that stood in an inbox at the start */
  :: atomic { else -> more = 0 }
  fi
}

proctype worker(byte me) {
  byte own, letters[WORKERS];                   /* Worker: how many of its own, and how many in each letter */
  byte taken, looks;                            /* Worker::work */
  bool spent, goes;                             /* whether its element has handled `steps`; Turn::Goes */
  byte i, to, more;

  if                                            /* for_each_mut */
  :: true                                       /* a thread is made for it, or it is the last, on the calling thread */
  :: me < WORKERS - 1 -> ended[me + 1] && ended[WORKERS - 1]   /* none can be made: it begins after those behind it */
  :: atomic { cut = true; goto end }            /* work_below: it is not below the limit */
  fi;
  begun++;                                      /* begin */

round:                                          /* work */
  if
  :: stopped -> goto end                        /* is_stopped */
  :: else
  fi;

  do                                            /* receive_all */
  :: atomic { i < TAKES && nempty(inbox[me]) -> /* receive: a pop finds one */
       inbox[me]?to;
       own = own + to;
       held = held + (spent -> to : 0);
       to = 0;
       taken++;
       i++
     }
  :: atomic { i < TAKES && empty(inbox[me]) -> i = 0;                       /* a pop finds none */
       if
       :: taken == 0 && (own == 0 || spent) && looks != 1 && KEEPS_NONE -> goto idle   /* Turn::Empty: nothing to do */
       :: else -> break
       fi
     }
  :: atomic { i == TAKES -> i = 0; break }
  od;
#ifdef EARLY_DONE
  atomic { done[me] = done[me] + taken };
#endif

  atomic {                                      /* burst */
    do
    :: i == BURST -> goes = true; break         /* Turn::Goes */
    :: i < BURST && (own == 0 || spent) -> break /* Turn::Empty */
    :: i < BURST && own > 0 && !spent -> spent = true; held = held + own
    :: i < BURST && own > 0 && !spent -> own--; flying--; cut = true; goto halt   /* a fault, Turn::Stops */
    :: i < BURST && own > 0 && !spent -> own--; flying--; i++;                    /* step: give, send_on */
       do
       :: to < 2 && spare > 0 -> to++; spare--; flying++; own++
       :: to < 2 && spare > 0 -> to++; spare--; flying++; letters[(me + 1) % WORKERS]++
#if WORKERS == 3
       :: to < 2 && spare > 0 -> to++; spare--; flying++; letters[(me + 2) % WORKERS]++
#endif
       :: to = 0; break
       od
    od;
    i = 0
  };

#if defined(KEEPS_LETTERS) || defined(LATE_LETTERS)
  if
  :: !goes -> goto count
  :: else
  fi;
#endif
  post_all();
  if
  :: atomic { goes -> goes = false;
#ifdef SLEEPS_ON
       goto idle
#else
#ifndef NO_RESET
       looks = 0;
#endif
       goto round
#endif
     }
  :: else
  fi;

count:
#ifdef SPENT_ENDS
  if
  :: spent -> goto end
  :: else
  fi;
#endif
#ifdef EARLY_SUMS
  if
  :: taken > 0 -> stop_if_done()
  :: else
  fi;
#endif
  if
  :: atomic { taken > 0;
#ifndef NO_RESET
       looks = 0;
#endif
#ifndef NO_RISE
       sleeps[me] = false                       /* rise */
#endif
     };
     atomic {                                   /* count_done */
#if !defined(EARLY_DONE) && !defined(SPENT_OWES)
       done[me] = done[me] + taken;
#elif defined(SPENT_OWES)
       done[me] = done[me] + (spent -> 0 : taken);
#endif
       taken = 0
     }
#if !defined(NO_SUMS) && !defined(EARLY_SUMS)
  :: atomic { taken == 0 && looks == 1 };
     stop_if_done()
#endif
  :: else
  fi;
#ifdef LATE_LETTERS
  post_all();
#endif

idle:
  atomic {                                      /* wait */
    looks = (looks > LOOKS + PATIENCE -> looks : looks + 1);
    if
    :: looks <= LOOKS -> goto round             /* spin_loop, yield_now */
#ifdef HASTY
    :: looks > LOOKS + PATIENCE -> cut = cut || INCOMPLETE; goto gives_up
#endif
#ifndef NO_PATIENCE
    :: looks > LOOKS + PATIENCE && INCOMPLETE -> cut = true; goto gives_up
#endif
    :: else                                     /* it goes on to `sleep` */
    fi
  };

  if                                            /* sleep */
  :: stopped -> goto end                        /* is_stopped; the next round sees the same */
  :: else
  fi;
  if
  :: atomic { !sleeps[me] -> sleeps[me] = true;
#ifndef NO_SECOND_LOOK
       goto round                               /* it looks once more */
#endif
     }
  :: sleeps[me]
  fi;
  if                                            /* Parker::park_timeout */
  :: token[me]
  :: INCOMPLETE                                 /* its time is over */
  fi;
  token[me] = false;
#ifndef NO_CLEAR
  sleeps[me] = false;
#endif
  goto round;

gives_up:
#ifndef QUIET_END
  gave_up = true;
#endif
  goto end;

halt:                                           /* stop; the next round sees it, and ends */
  stopped = true;
#ifndef QUIET_STOP
  atomic { to = 0; i = 0 };
  do
  :: atomic { to < WORKERS -> token[to] = true; to++ }
  :: atomic { to == WORKERS -> break }
  od;
#endif

end:
  atomic {                                      /* what it has at hand is gathered */
    left = left + own;
    own = 0;
    for (to : 0 .. WORKERS - 1) {
      left = left + letters[to];
      letters[to] = 0
    };
    taken = 0; looks = 0; spent = false; goes = false; i = 0; to = 0; more = 0;
    ended[me] = true
  }
}

init {                                          /* run_workers */
  byte k, n;

  atomic {
    select(k : 0 .. WORKERS - 1);
    inbox[k]!1;                                 /* send_start */
    k = 0;
    do
    :: k < WORKERS -> run worker(k); k++        /* work_all */
    :: k == WORKERS -> k = 0; break
    od
  };
  do
  :: atomic { k < WORKERS && ended[k] -> k++ }
  :: atomic { k == WORKERS -> k = 0; break }
  od;
  atomic {                                      /* gather, drain_all: `finish` goes on with that, and is alone */
    do
    :: k < WORKERS && nempty(inbox[k]) -> inbox[k]?n; left = left + n
    :: k < WORKERS && empty(inbox[k]) -> k++
    :: k == WORKERS -> break
    od;
    assert(left == flying);
    assert(cut || left == held)
  }
}
