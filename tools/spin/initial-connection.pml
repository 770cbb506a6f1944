/* The initial connection, from docs/initial-connection.md: a server at one host, and two users at others who ask for it at the same time.
 *
 * Between the hosts a request is on its way to a socket, and what comes back is that the connection is open, what was sent on it, or that it
 * has ended. A socket that listens serves one request. The sockets are L, where users ask, and S and S+1, which the server tells to one
 * user. With STRANGER the second user doesn't ask L: it guesses S and S+1. With RESETS a user's host may be reset with the server's once.
 *
 * UNCHECKED leaves out that the server looks whose connections it has. */

mtype = { L, S, S1, listens, used, opened, base, over, reset, none, done, refused, was_reset, stranger };

chan to_server = [8] of { byte, mtype };     /* a user's request to a socket, or that its host was reset */
chan to_user[2] = [4] of { mtype, mtype };   /* to a user: what happens to which of the server's sockets */

mtype socket_l = listens, socket_s = listens, socket_s1 = listens;
byte with_l = 2, with_s = 2, with_s1 = 2;    /* the user with whom each was opened first; 2 is nobody */
mtype server = none;                         /* the outcomes */
mtype user[2] = none;
bool was_told[2];                            /* whom the base was sent */

inline fails(why) {
    if
    :: server == none -> server = why
    :: else
    fi
}

/* both connections are open: the server is done if they are those of the user who got the base */
inline judges() {
    if
    :: server == none && with_s != 2 && with_s1 != 2 ->
#ifdef UNCHECKED
        server = done
#else
        if
        :: with_l != 2 && with_s == with_l && with_s1 == with_l -> server = done
        :: else -> server = stranger
        fi
#endif
    :: else
    fi
}

inline opens(who, state, with, name) {
    if
    :: state == listens ->
        state = used; to_user[who] ! opened, name;
        if :: with == 2 && server == none -> with = who :: else fi
    :: else -> to_user[who] ! over, name
    fi
}

active proctype serving() {
    byte who;
    mtype what;
end:
    do
    :: atomic { to_server ? who, what ->
        if
        :: what == L ->
            opens(who, socket_l, with_l, L);
            if
            :: with_l == who && server == none && !was_told[who] -> to_user[who] ! base, L; was_told[who] = true
            :: else
            fi
        :: what == S -> opens(who, socket_s, with_s, S); judges()
        :: what == S1 -> opens(who, socket_s1, with_s1, S1); judges()
        :: what == reset ->
            if
            :: with_l == who || with_s == who || with_s1 == who -> fails(was_reset)
            :: else
            fi
        fi;
        who = 0; what = none }
    od
}

proctype using(byte me; bool asks) {
    bool has_s, has_s1, knows;
    mtype what, which;
    if
    :: asks -> to_server ! me, L
    :: else -> atomic { knows = true; to_server ! me, S; to_server ! me, S1 }
    fi;
#if defined(STRANGER) || defined(RESETS)
end_waiting:                                 /* for the base, for ever: a server that has failed says nothing more, and its L still listens */
#endif
    do
    :: atomic { to_user[me] ? what, which ->
        if
        :: what == base -> knows = true; to_server ! me, S1; to_server ! me, S
        :: what == opened && which == S -> has_s = true
        :: what == opened && which == S1 -> has_s1 = true
        :: what == over && (which != L || !knows) -> user[me] = refused
        :: else
        fi;
        what = none; which = none }
        if
        :: user[me] != none -> break
        :: has_s && has_s1 -> user[me] = done; break
        :: else
        fi
#ifdef RESETS
    :: atomic { user[me] == none -> user[me] = was_reset; to_server ! me, reset }; break
#endif
    od;
    /* whoever has its outcome says nothing more, and takes what comes */
end:
    do
    :: atomic { to_user[me] ? what, which; what = none; which = none }
    od
}

init {
    atomic {
        run using(0, true);
#ifdef STRANGER
        run using(1, false)
#else
        run using(1, true)
#endif
    }
}

/* a server is done only with the user to whom it told the base, on both connections */
#define SERVED (server != done || (with_l != 2 && was_told[with_l] && with_s == with_l && with_s1 == with_l))
/* a user who asked and is done has both connections, and no other user is */
#define CONNECTED (user[0] != done || (socket_s == used && socket_s1 == used && user[1] != done))

active proctype watching() {
end:
    do
    :: d_step { !(SERVED) -> assert(SERVED) }
    :: d_step { !(CONNECTED) -> assert(CONNECTED) }
    od
}
