/* A host of the ARPANET in C: a network control program (NIC 8246), and on top of it a user or a server of the initial
   connection (RFC 165). It speaks to the IMP of a live network, written from docs/live.md, docs/formats.md,
   docs/hosts.md and docs/initial-connection.md.

     cc -O2 -o host examples/host.c
     ./host 0/3 2303 talk 0/1 1 HELLO "A SECOND LINE"    types lines at socket 1 of host 0/1, and wants each back
     ./host 0/2 2302 echo 1                              serves at socket 1: what users type comes back

   -t before the host's name: over TCP. -q: say only how it ends. -p SECONDS: start again after so long without progress
   (5). -l SECONDS: give up after so long (60). The status is 0 if all lines came back, 1 if not, 2 for wrong words. */
#include <arpa/inet.h>
#include <poll.h>
#include <stdbool.h>
#include <stdint.h>
#include <stdio.h>
#include <stdlib.h>
#include <string.h>
#include <time.h>
#include <unistd.h>

typedef uint8_t octet;
enum { REGULAR, IMP_NOP = 4, RFNM = 5, DEAD = 7, INCOMPLETE = 9 };              /* types of leaders */
enum { NOP, RTS, STR, CLS, ALL, GVB, RET, INR, INS, ECO, ERP, ERR, RST, RRP };  /* commands, and their octets */
static const int lengths[] = {1, 10, 10, 9, 8, 4, 8, 2, 2, 2, 2, 12, 1, 1};
enum { ILLEGAL = 1, SHORT, ERRONEOUS, NO_SOCKET, NOT_CONNECTED };               /* kinds of ERR */
enum { FRAME = 12, WORDS = 1012, HEADER = 9, MOST_COMMANDS = 120 };             /* octets */
enum { PAIRS = 16, ENDS = 48, QUEUE = 4096, DATA = 2048, SERVED = 64 };

#define EACH_END(it, pair) for (End *it = (pair)->ends; it < (pair)->ends + ENDS; it++)

/* ---- what is known of a connection's end, and of another host (docs/hosts.md, What a host keeps) */

typedef struct {
    bool used, mine, asked, heard, told, unwanted;  /* mine: it holds more than a request that was refused */
    bool cls_queued, cls_gone, cls_came;
    uint32_t own, foreign, bits;  /* bits and messages: granted, and not used yet */
    int link, size, messages, count;
    octet data[DATA];  /* what waits to be sent */
} End;

typedef struct {
    octet address;
    enum { CLOSED, WANT, GONE, HEARD, READY } phase;
    bool early, owes, busy[256];  /* busy: our message on that link has no answer yet */
    End ends[ENDS];
    octet queue[QUEUE];  /* commands that wait */
    int queued;
} Pair;

static Pair pairs[PAIRS];
static bool over_tcp, quiet, imp_is_there;
static int wire = -1;
static uint32_t sequence;
static double began, progress;
static struct sockaddr_in imp;

static double now(void) { struct timespec t; clock_gettime(CLOCK_MONOTONIC, &t); return t.tv_sec + t.tv_nsec / 1e9; }
#define say(...) if (!quiet) fprintf(stderr, "%8.3f ", now() - began), fprintf(stderr, __VA_ARGS__), fputc('\n', stderr)

static void put(octet *at, uint32_t number, int octets) { while (octets--) at[octets] = number, number >>= 8; }
static uint32_t get(const octet *at, int octets) {
    uint32_t number = 0;
    while (octets--) number = number << 8 | *at++;
    return number;
}

/* ---- the wire (docs/live.md) */

static void transmit(const octet *words, int octets, bool ready) {
    octet all[FRAME + WORDS] = "H316";
    int head = over_tcp ? 2 : FRAME;
    put(all + 4, sequence++, 4), put(all + 8, octets / 2, 2), put(all + 10, (octets ? 1 : 0) | (ready ? 2 : 0), 2);
    if (over_tcp) put(all, octets, 2);
    memcpy(all + head, words, octets);
    if (write(wire, all, head + octets) < 0) imp_is_there = false;
}
/* The ready line falls and rises, and three NOPs follow. Nothing that was said before is remembered. */
static void come_up(void) {
    const octet nop[4] = {IMP_NOP};
    if (wire >= 0 && !over_tcp) transmit(nop, 0, false);
    if (wire >= 0) close(wire);
    memset(pairs, 0, sizeof pairs);
    imp_is_there = false, sequence = 0, progress = now();
    wire = socket(AF_INET, over_tcp ? SOCK_STREAM : SOCK_DGRAM, 0);
    if (connect(wire, (struct sockaddr *)&imp, sizeof imp)) { close(wire); wire = -1; return; }
    for (int i = 0; i < 4; i++) transmit(nop, i ? 4 : 0, true);
}
static void message(Pair *pair, int link, int size, int count, const octet *data, int octets) {
    octet all[WORDS] = {REGULAR, pair->address, link, 0, 0, size};
    put(all + 6, count, 2);
    memcpy(all + HEADER, data, octets);
    pair->busy[link] = true;
    transmit(all, (HEADER + octets + 1) / 2 * 2, true);
}

/* ---- what this host says to another */
static void command(Pair *pair, int code, const octet *fields) {
    if (pair->queued + lengths[code] > QUEUE) return;
    pair->queue[pair->queued++] = code;
    memcpy(pair->queue + pair->queued, fields, lengths[code] - 1);
    pair->queued += lengths[code] - 1;
}
static void sockets(Pair *pair, int code, const End *end, int last) {
    octet fields[9];
    put(fields, end->own, 4), put(fields + 4, end->foreign, 4), put(fields + 8, last, 1);
    command(pair, code, fields);
}
static void grant(Pair *pair, End *end, int messages, uint32_t bits) {
    octet fields[7] = {end->link};
    put(fields + 1, messages, 2), put(fields + 3, bits, 4);
    end->messages += messages, end->bits += bits;
    command(pair, ALL, fields);
}
static void error(Pair *pair, int kind, const octet *wrong, int octets) {
    octet fields[11] = {kind};
    memcpy(fields + 1, wrong, octets < 10 ? octets : 10);
    command(pair, ERR, fields);
}
static bool sends(const End *end) { return end->own & 1; }
static bool is_open(const End *e) { return e->used && e->asked && e->heard && !e->cls_queued && !e->cls_came; }
static Pair *pair_of(octet address) {
    Pair *it = pairs;
    while (it < pairs + PAIRS && it->address && it->address != address) it++;
    return it < pairs + PAIRS ? it->address = address, it : NULL;
}
static End *between(Pair *pair, uint32_t own, uint32_t foreign) {
    EACH_END(it, pair) if (it->used && it->own == own && it->foreign == foreign) return it;
    return NULL;
}
static End *on_link(Pair *pair, int link, bool sending) {
    End *found = NULL;
    EACH_END(it, pair) if (it->used && it->link == link && sends(it) == sending && (!found || is_open(it))) found = it;
    return found;
}
static End *new_end(Pair *pair, uint32_t own, uint32_t foreign, int size, bool mine) {
    int link = 2;
    while (mine && !(own & 1) && link < 31 && on_link(pair, link, false)) link++;
    EACH_END(it, pair) if (!it->used) {
        *it = (End){.used = true, .mine = mine, .own = own, .foreign = foreign, .size = size};
        if (mine && !sends(it)) it->link = link;
        if (mine) sockets(pair, sends(it) ? STR : RTS, it, sends(it) ? size : link);
        return it;
    }
    return NULL;
}
static void shut(Pair *pair, uint32_t own) { EACH_END(it, pair) if (it->used && it->own == own) it->unwanted = true; }
static void hand_over(Pair *pair, uint32_t own, const void *data, int octets) {
    EACH_END(it, pair) if (is_open(it) && it->own == own && it->count + octets <= DATA)
        memcpy(it->data + it->count, data, octets), it->count += octets;
}

/* ---- the service: a user that types lines, or a server that echoes (docs/initial-connection.md) */

static bool serving;
static uint32_t listens, asked_at, base, last_base = 200;
static Pair *server;
static char **lines;
static octet heard[DATA];
static int line_count, line_at, heard_count, attempts;
static enum { IDLE, CONTACTING, ASKING, TYPING, CLOSING, DONE } state;
static struct { Pair *pair; uint32_t base, user; } served[SERVED];
static void start_again(const char *why) {
    if (state == DONE || state == IDLE) return;
    say("starts again: %s", why);
    state = IDLE, progress = now();
}
static void forget(Pair *pair, int phase) {
    EACH_END(it, pair) it->used = false;
    pair->queued = 0, pair->phase = phase;
}
static void make_contact(octet address) {
    if (!(server = pair_of(address))) return;
    forget(server, WANT);
    attempts++, asked_at += 8, base = line_at = heard_count = 0;
    state = CONTACTING, progress = now();
    say("contacts %d/%d", address >> 6, address & 63);
}
static void user_ready(Pair *pair) {
    say("ready with %d/%d", pair->address >> 6, pair->address & 63);
    if (pair == server && state == CONTACTING) { new_end(pair, asked_at, listens, 0, true); state = ASKING; }
}
static void user_lost(Pair *pair, const char *why) {
    if (pair == server) start_again(why);
    for (int i = 0; i < SERVED; i++) if (served[i].pair == pair) served[i].pair = NULL;
}
static void type_line(void) {
    char text[DATA];
    hand_over(server, asked_at + 3, text, snprintf(text, sizeof text, "%s\r\n", lines[line_at]));
    say("types %s", lines[line_at]);
}
static void user_opened(Pair *pair, End *end) {
    say("socket %u is open", end->own);
    progress = now();
    if (!serving && end->own == asked_at) grant(pair, end, 1, 32);
    if (!serving && end->own == asked_at + 2) grant(pair, end, 4, 4096);
    End *in = between(pair, asked_at + 2, base + 1), *out = between(pair, asked_at + 3, base);
    if (!serving && state == ASKING && base && in && out && is_open(in) && is_open(out)) state = TYPING, type_line();
    for (int i = 0; serving && i < SERVED; i++) {
        octet said[4];
        put(said, served[i].base, 4);
        bool is_his = served[i].pair == pair, asks = end->own == listens && end->foreign == served[i].user;
        if (is_his && asks) hand_over(pair, listens, said, 4), end->unwanted = true;
        if (is_his && end->own == served[i].base) grant(pair, end, 4, 4096);
    }
}
static void user_over(Pair *pair, uint32_t own) {
    say("socket %u is over", own);
    for (int i = 0; serving && i < SERVED; i++)
        if (served[i].pair == pair && own >> 1 == served[i].base >> 1) { shut(pair, own ^ 1); served[i].pair = NULL; }
    if (serving || pair != server) return;
    if (state == CLOSING && !between(pair, asked_at + 2, base + 1) && !between(pair, asked_at + 3, base)) state = DONE;
    else if (state == TYPING || (state == ASKING && (own != asked_at || !base))) start_again("a connection is over");
}
static void user_arrived(Pair *pair, End *end, const octet *data, int octets, uint32_t bits) {
    progress = now();
    if (serving) hand_over(pair, end->own + 1, data, octets), grant(pair, end, 1, bits);
    else if (end->own == asked_at && octets == 4 && !base) {
        base = get(data, 4);
        say("the base is %u", base);
        shut(pair, asked_at);
        if (base & 1) { start_again("a base is even"); return; }
        new_end(pair, asked_at + 2, base + 1, 0, true);
        new_end(pair, asked_at + 3, base, 8, true);
    } else if (end->own == asked_at + 2 && state == TYPING && heard_count + octets <= DATA) {
        memcpy(heard + heard_count, data, octets);
        heard_count += octets, grant(pair, end, 1, bits);
        int wanted = strlen(lines[line_at]);
        if (heard_count < wanted + 2) return;
        bool same = heard_count == wanted + 2 && !memcmp(heard, lines[line_at], wanted);
        printf("%s: %.*s\n", same ? "came back" : "DIFFERS", heard_count - 2, heard);
        heard_count = 0;
        if (++line_at < line_count) type_line();
        else state = CLOSING, shut(pair, asked_at + 3), shut(pair, asked_at + 2);
    }
}
/* Whether a request that nobody waits for is taken: then an end with a request of this host's own answers it. */
static bool user_hears(Pair *pair, uint32_t own, uint32_t foreign, int last) {
    for (int i = 0; serving && i < SERVED; i++) {
        bool is_to_base = served[i].pair == pair && foreign == served[i].user + (own & 1 ? 2 : 3);
        if (own == listens && !served[i].pair) {
            served[i].pair = pair, served[i].base = last_base += 2, served[i].user = foreign;
            return new_end(pair, own, foreign, 32, true);
        }
        if (is_to_base && own >> 1 == served[i].base >> 1) return new_end(pair, own, foreign, own & 1 ? 8 : last, true);
    }
    return false;
}

/* ---- what another host says (docs/hosts.md, The reset and Connections) */

static void settle(Pair *pair) {
    EACH_END(it, pair) {
        if (is_open(it) && !it->told) { it->told = true; user_opened(pair, it); }
        bool drained = !sends(it) || (!it->count && !pair->busy[it->link]);
        if (it->used && (it->unwanted || it->cls_came) && !it->cls_queued && drained)
            it->cls_queued = true, sockets(pair, CLS, it, 0);
        if (it->used && it->cls_gone && it->cls_came) { it->used = false; if (it->mine) user_over(pair, it->own); }
    }
}
static int request(Pair *pair, int code, uint32_t foreign, uint32_t own, int last) {
    bool sending = code == RTS;
    if ((own & 1) != sending || (foreign & 1) == sending || (sending ? last < 2 || last > 31 : !last)) return ERRONEOUS;
    End *end = between(pair, own, foreign);
    if ((sending && on_link(pair, last, true)) || (end && end->heard)) return ERRONEOUS;
    if (!end && user_hears(pair, own, foreign, last)) end = between(pair, own, foreign);
    if (end) end->heard = true, *(sending ? &end->link : &end->size) = last;
    else if ((end = new_end(pair, own, foreign, 0, false)))  /* nobody wants it: CLS refuses it */
        end->heard = end->cls_queued = true, sockets(pair, CLS, end, 0);
    return 0;
}
static int about_link(Pair *pair, const octet *said) {
    End *end = on_link(pair, said[1], said[0] != RET && said[0] != INS);
    if (!end || !is_open(end)) return end && (end->cls_queued || end->cls_came) ? 0 : NOT_CONNECTED;
    if (said[0] == ALL) {
        uint64_t bits = (uint64_t)end->bits + get(said + 4, 4), messages = end->messages + get(said + 2, 2);
        end->bits = bits > UINT32_MAX ? UINT32_MAX : bits;
        end->messages = messages > 65535 ? 65535 : messages;
    } else if (said[0] == GVB) {
        octet fields[7] = {said[1]};
        int messages = end->messages * (said[2] > 128 ? 128 : said[2]) / 128;
        uint32_t bits = (uint64_t)end->bits * (said[3] > 128 ? 128 : said[3]) / 128;
        put(fields + 1, messages, 2), put(fields + 3, bits, 4), command(pair, RET, fields);
        end->messages -= messages, end->bits -= bits;
    } else if (said[0] == RET) {
        if ((int)get(said + 2, 2) > end->messages || get(said + 4, 4) > end->bits) return ERRONEOUS;
        end->messages -= get(said + 2, 2), end->bits -= get(said + 4, 4);
    }
    return 0;
}
/* Takes a command. The kind of the ERR that answers it, 0 for none. */
static int take(Pair *pair, const octet *said) {
    int code = said[0], was = pair->phase;
    if (code == RST) {
        forget(pair, was == CLOSED ? READY : was);
        pair->owes = true;
        if (was == CLOSED) user_ready(pair); else if (was == READY) user_lost(pair, "it resets");
    } else if (code == RRP) {
        pair->early |= was == GONE;
        if (was == HEARD) { pair->phase = READY; user_ready(pair); }
    } else if (was == READY && (code == RTS || code == STR)) {
        return request(pair, code, get(said + 1, 4), get(said + 5, 4), said[9]);
    } else if (was == READY && code == CLS) {
        End *end = between(pair, get(said + 5, 4), get(said + 1, 4));
        if (!end) return NO_SOCKET;
        end->cls_came = true, end->count = 0;
    } else if (was == READY && code >= ALL && code <= INS) {
        return about_link(pair, said);
    } else if (was == READY && code == ECO) {
        command(pair, ERP, said + 1);
    } else if (was == READY && code == ERR) say("an error is reported, of kind %d", said[1]);
    return 0;
}
static void answered(Pair *pair, int kind, int link) {
    int was = pair->phase;
    pair->busy[link] = false;
    if (kind == RFNM) {
        if (was == GONE) pair->phase = pair->early ? WANT : HEARD, pair->early = false;
    } else if (was == GONE || (was == HEARD && !pair->owes)) {
        pair->phase = CLOSED;
        user_lost(pair, "no contact");
    } else if (was == READY && !pair->owes) {
        forget(pair, CLOSED);
        user_lost(pair, "a message was not taken");
    }
}

static void taken(const octet *words, int octets) {
    int kind = words[0] & 15, link = words[2], size = words[5], count = get(words + 6, 2);
    Pair *pair = kind == IMP_NOP || octets < 4 ? NULL : pair_of(words[1]);
    if (!pair) return;
    if (kind == RFNM || kind == DEAD || kind == INCOMPLETE) { answered(pair, kind, link); return; }
    if (kind != REGULAR || octets < HEADER) return;
    const octet *text = words + HEADER;
    int length = (size * count + 7) / 8;
    bool whole = HEADER + length <= octets;
    if (link) {
        End *end = pair->phase == READY ? on_link(pair, link, false) : NULL;
        if (pair->phase != READY || (end && !is_open(end) && (end->cls_queued || end->cls_came))) return;
        if (!end || !is_open(end)) error(pair, NOT_CONNECTED, words + 4, octets - 4);
        else if (!whole || size != end->size || !end->messages || (uint32_t)(size * count) > end->bits)
            error(pair, ERRONEOUS, words + 4, octets - 4);
        else {
            end->messages--, end->bits -= size * count;
            user_arrived(pair, end, text, size * count / 8, size * count);
        }
        return;
    }
    bool is_control = whole && size == 8 && count <= MOST_COMMANDS;
    if (!is_control && pair->phase == READY) error(pair, ERRONEOUS, words + 4, octets - 4);
    for (int used = 0; is_control && count; text += used, count -= used) {
        int wrong = text[0] > RRP ? ILLEGAL : count < lengths[text[0]] ? SHORT : 0;
        used = wrong ? count : lengths[text[0]];
        if (!wrong) wrong = take(pair, text);
        if (wrong && pair->phase == READY) error(pair, wrong, text, used);
        settle(pair);
    }
}
/* Sends what may go to another host now (docs/hosts.md, What goes out). Whether something did. */
static bool next(Pair *pair) {
    bool any = false;
    for (int link = 0; link < 256; link++) any |= pair->busy[link];
    settle(pair);
    if (pair->phase == WANT || pair->owes) {
        octet code = pair->phase == WANT ? RST : RRP;
        if (any) return false;
        if (code == RST) pair->phase = GONE, pair->early = false; else pair->owes = false;
        message(pair, 0, 8, 1, &code, 1);
        return true;
    }
    if (pair->phase != READY) return false;
    if (pair->queued && !pair->busy[0]) {
        int count = 0;
        for (octet *it; count < pair->queued && count + lengths[*(it = pair->queue + count)] <= MOST_COMMANDS; ) {
            End *end = *it >= RTS && *it <= CLS ? between(pair, get(it + 1, 4), get(it + 5, 4)) : NULL;
            if (end && *it == CLS) end->cls_gone = true; else if (end) end->asked = true;
            count += lengths[*it];
        }
        message(pair, 0, 8, count, pair->queue, count);
        memmove(pair->queue, pair->queue + count, pair->queued -= count);
        return true;
    }
    for (int link = 2; link < 32; link++) {
        End *end = on_link(pair, link, true);
        if (!end || !is_open(end) || !end->messages || pair->busy[link]) continue;
        int most = 8 * end->count < 8000 ? 8 * end->count : 8000;
        int count = (end->bits < (uint32_t)most ? (int)end->bits : most) / end->size, octets = count * end->size / 8;
        if (!count) continue;
        end->messages--, end->bits -= count * end->size;
        message(pair, link, end->size, count, end->data, octets);
        memmove(end->data, end->data + octets, end->count -= octets);
        return true;
    }
    return false;
}
/* Reads what the IMP sent. Frames of a message that comes in several are joined. */
static void receive(void) {
    static octet words[WORDS];
    static int count;
    octet all[FRAME + WORDS];
    int length = 0, got = recv(wire, all, over_tcp ? 2 : sizeof all, over_tcp ? MSG_WAITALL : 0);
    if (over_tcp && got == 2 && (length = get(all, 2)) <= WORDS) got = recv(wire, words, length, MSG_WAITALL);
    if (got <= 0) { imp_is_there = false; if (over_tcp) come_up(); return; }
    if (!over_tcp) {
        if (got < FRAME || memcmp(all, "H316", 4) || got != FRAME + 2 * (int)get(all + 8, 2)) return;
        imp_is_there = all[11] & 2;
        if (count + got - FRAME > WORDS) count = 0;
        memcpy(words + count, all + FRAME, got - FRAME);
        count += got - FRAME;
        if (!(all[11] & 1)) return;
        length = count, count = 0;
    }
    if (length) imp_is_there = true, taken(words, length);
}
static int address_of(const char *word) {
    int host, number;
    return sscanf(word, "%1d/%2d", &host, &number) == 2 && host < 4 && number < 64 ? host << 6 | number : 0;
}
int main(int argc, char **argv) {
    double patience = 5, limit = 60, asked = 0;
    for (int it; (it = getopt(argc, argv, "tqp:l:")) != -1;) {
        if (it == 't') over_tcp = true; else if (it == 'q') quiet = true;
        else if (it == 'p') patience = atof(optarg); else if (it == 'l') limit = atof(optarg); else return 2;
    }
    argv += optind, argc -= optind;
    serving = argc == 4 && !strcmp(argv[2], "echo");
    bool talks = argc > 5 && !strcmp(argv[2], "talk") && address_of(argv[3]);
    if (!(serving || talks) || !address_of(argv[0]))
        return fputs("host [-t] [-q] [-p S] [-l S] OWN PORT (talk PEER SOCKET LINE.. | echo SOCKET)\n", stderr), 2;
    imp = (struct sockaddr_in){.sin_family = AF_INET, .sin_port = htons(atoi(argv[1]))};
    imp.sin_addr.s_addr = htonl(INADDR_LOOPBACK);
    listens = atoi(argv[serving ? 3 : 4]), lines = argv + 5, line_count = argc - 5, began = now();
    for (come_up(); state != DONE && (serving || now() - began < limit);) {
        struct pollfd it = {.fd = wire, .events = POLLIN};
        if (wire < 0) usleep(100000); else if (poll(&it, 1, 50) > 0) receive();
        for (int i = 0; i < PAIRS && pairs[i].address; i++) while (next(pairs + i)) ;
        if (!imp_is_there && now() - asked > 0.3) {
            asked = now();
            if (wire < 0) come_up(); else transmit((octet *)"", 0, true);
        }
        if (serving || !imp_is_there || state == DONE) continue;
        if (state == IDLE && now() - progress > (attempts ? 0.3 : 0)) make_contact(address_of(argv[3]));
        if (state != IDLE && now() - progress > patience) { start_again("nothing comes"); come_up(); }
    }
    struct pollfd last = {.fd = wire, .events = POLLIN};
    while (state == DONE && server->busy[0] && poll(&last, 1, 500) > 0) receive();
    printf("%s: %d of %d lines, ", state == DONE ? "done" : "not done", line_at, line_count);
    printf("%d attempts, %.2f s\n", attempts, now() - began);
    if (wire >= 0 && !over_tcp) transmit((octet *)"", 0, false);
    return state == DONE ? 0 : 1;
}
