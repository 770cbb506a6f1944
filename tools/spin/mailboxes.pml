/* Plain mailboxes between two hosts, from docs/mailboxes.md: LINKS links each way, and with OWN each host's flows to itself too.
 *
 * Every event is one step, and the state is what waits: each queue, oldest first, and which hosts are up. With BOXES the table of boxes
 * is beside it, and asserts that each crossing finds what it needs. UNSETTLED and UNBLOCKED leave out a rule. */

#ifndef LINKS
#define LINKS 1
#endif
#ifdef OWN
#define FLOWS (4 * LINKS)
#else
#define FLOWS (2 * LINKS)
#endif
#define FROM(f) ((f) % 2)
#define TO(f) ((f) < 2 * LINKS -> 1 - (f) % 2 : (f) % 2)

mtype = { nothing, message, rfnm, dead, incomplete, vacant, waits, taken };

bool is_up[2] = true;
chan messages[2] = [FLOWS] of { byte };      /* the flows whose messages wait for a host */
chan answers[2] = [FLOWS] of { byte };       /* the flows whose answers wait for it */
mtype holds[FLOWS] = nothing;                /* of each flow what waits */
byte flow, left;                             /* 0 between steps */

#ifdef BOXES
mtype box[FLOWS] = vacant;
#define FINDS(f, one, other) assert(box[f] == one || box[f] == other)
#define LEAVES(f, what) box[f] = what
#else
#define FINDS(f, one, other) skip
#define LEAVES(f, what) skip
#endif

inline answer(f, kind) {
    if
    :: is_up[FROM(f)] -> answers[FROM(f)] ! f; holds[f] = kind
    :: else -> holds[f] = nothing
    fi
}

inline goes_out(f) {
    FINDS(f, vacant, vacant); LEAVES(f, waits);
    if
    :: is_up[TO(f)] -> messages[TO(f)] ! f; holds[f] = message
    :: else -> answer(f, dead)
    fi
}

inline is_answered(f) {
    if
    :: holds[f] == rfnm -> FINDS(f, taken, taken)
    :: holds[f] == dead -> FINDS(f, waits, waits)
    :: else -> FINDS(f, waits, taken)
    fi;
    LEAVES(f, vacant); holds[f] = nothing
}

inline takes(h) {
    if
    :: nempty(answers[h]) -> answers[h] ? flow; is_answered(flow)
    :: else -> messages[h] ? flow; FINDS(flow, waits, waits); LEAVES(flow, taken); answer(flow, rfnm)
    fi;
    flow = 0
}

inline is_given_up(f) {
    if
    :: holds[f] == message -> messages[TO(f)] ?? eval(f)
    :: else -> answers[FROM(f)] ?? eval(f)
    fi;
    answer(f, incomplete)
}

inline goes_down(h) {
    is_up[h] = false;
    do
    :: nempty(answers[h]) -> answers[h] ? flow; holds[flow] = nothing
    :: else -> break
    od;
    left = len(messages[h]);
    do
    :: left > 0 -> messages[h] ? flow; answer(flow, dead); left--
    :: else -> break
    od;
    flow = 0
}

inline comes_up(h) {
    is_up[h] = true;
#ifdef BOXES
    LEAVES(h, vacant);
#if LINKS == 2 || defined(OWN)
    LEAVES(h + 2, vacant);
#endif
#endif
}

/* whether a message of a host waits */
#ifdef UNSETTLED
#define OUTSTANDING(h) false
#elif LINKS == 2 || defined(OWN)
#define OUTSTANDING(h) (holds[h] == message || holds[(h) + 2] == message)
#else
#define OUTSTANDING(h) (holds[h] == message)
#endif
#ifdef UNBLOCKED
#define BLOCKS(f) (holds[f] == message)
#else
#define BLOCKS(f) (holds[f] != nothing)
#endif

#define OF_FLOW(f) \
    :: d_step { is_up[FROM(f)] && !BLOCKS(f) -> goes_out(f) } \
    :: d_step { holds[f] == message || holds[f] == rfnm -> is_given_up(f) }
#define OF_HOST(h) \
    :: d_step { is_up[h] && (nempty(answers[h]) || nempty(messages[h])) -> takes(h) } \
    :: d_step { is_up[h] -> goes_down(h) } \
    :: d_step { !is_up[h] && !OUTSTANDING(h) -> comes_up(h) }

active proctype network() {
    do
    OF_FLOW(0)
    OF_FLOW(1)
#if LINKS == 2 || defined(OWN)
    OF_FLOW(2)
    OF_FLOW(3)
#endif
    OF_HOST(0)
    OF_HOST(1)
    od
}
