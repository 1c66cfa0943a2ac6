/* Every way that workers can go through lock, board, parking and waking, for `spin`: oracle/workers runs it.

   No clause speaks of who is woken, since a worker that is woken for nothing only looks again. So this is a model of the code that does it,
   small enough to be looked through whole: `enter` and `leave` of the counted lock with its board of sleepers (book_lock), and the
   rounds of visits, the parking and the waking of workers (site_worker). Each order of the steps has to end: all workers home, each
   message handled, the book's reason told. WRONG plants one wrong body, and some order has to stop then. */

#ifndef WORKERS
#define WORKERS 3
#endif
#ifndef WRONG
#define WRONG 0
#endif
#define SITES 3
#define FOLLOWED_VISITS 1  /* 15 in the code: how often a visit may be followed by another one */

#define TURN_WAKES_NOBODY 1
#define SLEEPER_IS_NOT_WRITTEN 2
#define LOOKS_BEFORE_IT_WRITES 3
#define END_WAKES_NOBODY 4
#define FIRST_HOST_IS_LEFT_OUT 5
#define LAST_VISIT_ALONE_WAKES 6
#define LAST_SITE_IS_NOT_WOKEN 7
#define BUSY_WORKER_PARKS 8

/* The lock: tickets modulo the number of seats, which each have at most one. */
byte drawn, serving;
byte board[SITES];         /* at a ticket's place the site whose seat sleeps with it, or 0 */
bool seat[SITES + 1];      /* the tokens of the seats' parkers */
bool token[WORKERS];       /* the tokens of the workers' parkers */

/* The book. A message is a bit. Site 1 makes three turns of its own: they send message 0 to site 2, message 1 to site 3, and
   none. Message 0 is answered by message 2 to site 3, and message 1 by message 3 to site 1. */
byte queue[SITES + 1];
byte own[SITES + 1];
byte in_hand, handled;
bool over;

#define IDLE(s) (own[s] == 0)
#define IS_QUIET (IDLE(1) && IDLE(2) && IDLE(3) && !queue[1] && !queue[2] && !queue[3] && !in_hand)

/* Posts a turn: the message in hand is handled, or the site's next own turn made. `sent` is the bits of the receivers. */
inline post() {
    sent = 0;
    if
    :: taken == 1 -> queue[3] = queue[3] | 4; sent = 8
    :: taken == 2 -> queue[1] = queue[1] | 8; sent = 2
    :: taken == 0 && own[site] == 3 -> own[site] = 2; queue[2] = queue[2] | 1; sent = 4
    :: taken == 0 && own[site] == 2 -> own[site] = 1; queue[3] = queue[3] | 2; sent = 8
    :: taken == 0 && own[site] == 1 -> own[site] = 0
    :: else -> skip
    fi;
    if
    :: taken -> handled++; in_hand = in_hand & (15 - taken); taken = 0
    :: else -> skip
    fi;
    if
    :: IS_QUIET -> over = true
    :: else -> skip
    fi
}

inline fetch() {
    if
    :: !over && queue[site] & 1 -> taken = 1
    :: !over && queue[site] & 2 -> taken = 2
    :: !over && queue[site] & 4 -> taken = 4
    :: !over && queue[site] & 8 -> taken = 8
    :: else -> taken = 0
    fi;
    queue[site] = queue[site] & (15 - taken);
    in_hand = in_hand | taken;
    is_over = over
}

/* A way through the lock; posts or fetches inside. */
inline visit_book(posts, fetches) {
    atomic { ticket = drawn; drawn = (drawn + 1) % SITES; on_board = false }
    do
    :: serving == ticket -> break
    :: serving != ticket && !on_board ->
#if WRONG != SLEEPER_IS_NOT_WRITTEN
        board[ticket] = site;
#endif
        on_board = true;
#if WRONG == LOOKS_BEFORE_IT_WRITES
        atomic { seat[site] -> seat[site] = false }
#endif
    :: serving != ticket && on_board -> atomic { seat[site] -> seat[site] = false }
    od;
    if
    :: on_board -> board[ticket] = 0
    :: else -> skip
    fi;
    d_step {
        if
        :: posts -> post()
        :: else -> skip
        fi;
        if
        :: fetches -> fetch()
        :: else -> skip
        fi
    }
    serving = (ticket + 1) % SITES;
    sleeper = board[(ticket + 1) % SITES];
    if
#if WRONG != TURN_WAKES_NOBODY
    :: sleeper -> seat[sleeper] = true
#endif
    :: else -> skip
    fi;
    atomic { sleeper = 0; ticket = 0; on_board = false }
}

/* Wakes the workers of the sites that a turn sent messages to. */
inline wake() {
    if
    :: sent & 2 -> token[1 % WORKERS] = true
    :: else -> skip
    fi;
    if
    :: sent & 4 -> token[2 % WORKERS] = true
    :: else -> skip
    fi;
#if WRONG != LAST_SITE_IS_NOT_WOKEN
    if
    :: sent & 8 -> token[3 % WORKERS] = true
    :: else -> skip
    fi;
#endif
    sent = 0
}

/* Visits in a row at one site. */
inline visit_in_a_row() {
    did = false;
    row = 0;
    visit_book(false, true);
    do
    :: is_over -> goto ended
    :: !is_over && !taken && IDLE(site) -> did = false; break
    :: !is_over && (taken || !IDLE(site)) && row < FOLLOWED_VISITS ->
        visit_book(true, true);
#if WRONG == LAST_VISIT_ALONE_WAKES
        sent = 0;
#else
        wake();
#endif
        row++;
        did = true
    :: !is_over && (taken || !IDLE(site)) && row == FOLLOWED_VISITS ->
        visit_book(true, false);
        wake();
        did = true;
        break
    od;
    row = 0
}

proctype Worker(byte number) {
    byte site, ticket, sleeper, taken, sent, row, it;
    bool on_board, is_over, busy, did;
    do
    :: true ->
        busy = false;
        site = 1;
        do
        :: site > SITES -> break
        :: site <= SITES && site % WORKERS != number -> site++
        :: site <= SITES && site % WORKERS == number ->
#if WRONG == FIRST_HOST_IS_LEFT_OUT
            if
            :: site == (number -> number : WORKERS) -> site++; goto next
            :: else -> skip
            fi;
#endif
            visit_in_a_row();
            busy = busy || did;
            did = false;
            site++;
next:       skip
        od;
        site = 0;
        if
#if WRONG == BUSY_WORKER_PARKS
        :: true -> atomic { token[number] -> token[number] = false }
#else
        :: busy -> skip
        :: !busy -> atomic { token[number] -> token[number] = false }
#endif
        fi
    od;
ended:
#if WRONG != END_WAKES_NOBODY
    it = 0;
    do
    :: it < WORKERS -> token[it] = true; it++
    :: else -> break
    od;
#endif
    atomic { site = 0; row = 0; it = 0; busy = false; did = false; is_over = false; taken = 0; sent = 0 }
}

init {
    atomic {
        own[1] = 3;
        byte worker = 0;
        do
        :: worker < WORKERS -> run Worker(worker); worker++
        :: else -> break
        od
    }
    (_nr_pr == 1) -> assert(over && handled == 4 && !in_hand)
}
