/* One flow by message numbers, from docs/numbers.md and docs/flow-law.md: NUMBERS numbers and a window of WINDOW.
 *
 * Packets are lost, repeated and overtaken at will, so those of a kind are a set of numbers. Data of the message that is outstanding are
 * told from data of earlier ones. Every event is one step. The flow's mailbox is beside it, and asserts that each crossing finds what
 * it needs. With STOPS hosts and IMPs stop and start, and numbers are forgotten.
 *
 * A rule is left out by UNNOTED, NO_WINDOW, HASTY (giving up), ASKED_UNNOTED, IMPATIENT, AT_ONCE (coming up), BEGINS_KEPT. A need of the law
 * that no history is known to break is left out by QUESTIONS_MAY_LIVE (giving up) and QUESTIONS_MAY_STAY (coming up and forgetting). */

#ifndef NUMBERS
#define NUMBERS 5
#define WINDOW 2
#endif
#define NONE NUMBERS
#define SET(n) (1 << (n))

mtype = { idle, outstanding, answered, vacant, waits, taken, dead, never_came, rfnm, incomplete, none, this, former };

/* the source */
bool source_imp = true, source_up = true;
mtype state = idle, kind = none;
byte last = NONE;
/* the destination: what it noted, and the messages that wait for the host */
bool imp = true, host = true;
byte noted = NONE;
mtype fate = none;
mtype first = none, second = none;
byte first_number, second_number;
/* what is alive */
byte data, old_data, asks, rfnms, deads, nevers;
mtype box = vacant;
byte number;                                 /* 0 between steps */

#define AHEAD(n) (((n) + NUMBERS - noted) % NUMBERS)
#define IS_NEW(n) (noted == NONE || (AHEAD(n) >= 1 && AHEAD(n) <= WINDOW))
#define NEXT (last == NONE -> 0 : (last + 1) % NUMBERS)
#define ALIVE (data | old_data | asks | rfnms | deads | nevers)
#define QUEUED(n) ((first != none && first_number == (n)) || (second != none && second_number == (n)))

#ifdef NO_WINDOW
#define HAS_ROOM true
#else
#define HAS_ROOM (last == NONE || !(ALIVE & SET((last + NUMBERS - WINDOW) % NUMBERS)))
#endif
#ifdef BEGINS_KEPT
#define IS_FREE true
#else
#define IS_FREE (noted != NEXT)
#endif
#ifdef HASTY
#define IS_GONE true
#elif defined(QUESTIONS_MAY_LIVE)
#define IS_GONE (!((data | old_data) & SET(last)) && !QUEUED(last))
#else
#define IS_GONE (!(ALIVE & SET(last)) && !QUEUED(last))
#endif
#ifdef QUESTIONS_MAY_STAY
#define REQUESTS (data | old_data)
#else
#define REQUESTS (data | old_data | asks)
#endif
#ifdef AT_ONCE
#define MAY_FORGET true
#define MAY_START true
#else
#define MAY_FORGET (!(REQUESTS) && state != outstanding && first == none)
#define MAY_START (!(ALIVE) && noted == NONE && first == none)
#endif

inline note(n, what) {
#ifndef UNNOTED
    noted = n; fate = what
#else
    skip
#endif
}

inline begin() {
    assert(box == vacant); box = waits;
    old_data = old_data | data;
    if :: first == this -> first = former :: else fi;
    if :: second == this -> second = former :: else fi;
    last = NEXT; state = outstanding; data = SET(last)
}

inline arrives(whose, n) {
    if
    :: !host -> note(n, dead); deads = deads | SET(n)
    :: host && first == none -> first = whose; first_number = n; note(n, waits)
    :: host && first != none && second == none -> second = whose; second_number = n; note(n, waits)
    :: else
    fi
}

inline is_asked(n) {
    if
    :: IS_NEW(n) ->
#ifndef ASKED_UNNOTED
        noted = n; fate = never_came;
#endif
        nevers = nevers | SET(n)
    :: !IS_NEW(n) && noted == n ->
        if
        :: fate == taken -> rfnms = rfnms | SET(n)
        :: fate == dead -> deads = deads | SET(n)
        :: fate == never_came -> nevers = nevers | SET(n)
#ifdef IMPATIENT
        :: fate == waits -> nevers = nevers | SET(n)
#endif
        :: else
        fi
    :: else
    fi
}

inline is_taken() {
    assert(box == waits && first == this); box = taken;
    number = first_number;
    first = second; first_number = second_number; second = none; second_number = 0;
    if :: noted == number -> fate = taken :: else fi;
    rfnms = rfnms | SET(number); number = 0
}

inline frees(what) {
    if
    :: source_up -> state = answered; kind = what
    :: else -> state = idle
    fi
}

inline is_handed() {
    if
    :: kind == rfnm -> assert(box == taken)
    :: kind == incomplete -> assert(box != vacant)
    :: else -> assert(box == waits)
    fi;
    box = vacant; state = idle; kind = none
}

inline queue_goes(with_dead) {
    if :: first != none && noted == first_number -> fate = dead :: else fi;
    if :: second != none && noted == second_number -> fate = dead :: else fi;
    if :: with_dead && first != none -> deads = deads | SET(first_number) :: else fi;
    if :: with_dead && second != none -> deads = deads | SET(second_number) :: else fi;
    first = none; first_number = 0; second = none; second_number = 0
}

#define OF_NUMBER(n) \
    :: d_step { imp && (data & SET(n)) && IS_NEW(n) -> arrives(this, n) } \
    :: d_step { imp && (old_data & SET(n)) && IS_NEW(n) -> arrives(former, n) } \
    :: d_step { imp && (asks & SET(n)) -> is_asked(n) } \
    :: d_step { (rfnms & SET(n)) && source_imp && state == outstanding && last == n -> frees(rfnm) } \
    :: d_step { (deads & SET(n)) && source_imp && state == outstanding && last == n -> frees(dead) } \
    :: d_step { (nevers & SET(n)) && source_imp && state == outstanding && last == n -> frees(never_came) } \
    :: d_step { data & SET(n) -> data = data & ~SET(n) } \
    :: d_step { old_data & SET(n) -> old_data = old_data & ~SET(n) } \
    :: d_step { asks & SET(n) -> asks = asks & ~SET(n) } \
    :: d_step { rfnms & SET(n) -> rfnms = rfnms & ~SET(n) } \
    :: d_step { deads & SET(n) -> deads = deads & ~SET(n) } \
    :: d_step { nevers & SET(n) -> nevers = nevers & ~SET(n) }

active proctype flow() {
end:                                         /* without STOPS nothing forgets a number, so one that is kept may never be begun again */
    do
    :: d_step { source_up && state == idle && HAS_ROOM && IS_FREE -> begin() }
    :: d_step { host && first != none -> is_taken() }
    :: d_step { source_up && state == answered -> is_handed() }
    :: d_step { source_imp && state == outstanding -> asks = asks | SET(last) }
    :: d_step { source_imp && state == outstanding && IS_GONE -> frees(incomplete) }
#ifdef STOPS
    /* hosts */
    :: d_step { host -> host = false; queue_goes(true) }
    :: d_step { imp && !host -> host = true }
    :: d_step { source_up -> source_up = false; if :: state == answered -> state = idle; kind = none :: else fi }
    :: d_step { source_imp && !source_up && state != outstanding -> source_up = true; box = vacant }
    /* IMPs */
    :: d_step { imp -> imp = false; host = false; queue_goes(false); noted = NONE; fate = none }
    :: d_step { !imp && MAY_FORGET -> imp = true }
    :: d_step { imp && noted != NONE && MAY_FORGET -> noted = NONE; fate = none }
    :: d_step { source_imp -> source_imp = false; source_up = false; state = idle; kind = none; last = NONE }
    :: d_step { !source_imp && MAY_START -> source_imp = true }
#endif
    OF_NUMBER(0)
    OF_NUMBER(1)
    OF_NUMBER(2)
#if NUMBERS > 3
    OF_NUMBER(3)
    OF_NUMBER(4)
#endif
#if NUMBERS > 5
    OF_NUMBER(5)
    OF_NUMBER(6)
#endif
    od
}
