/**
 * The questions of the lessons: each is asked before the event on a line of the script, and answered after it.
 *
 * What an answer says can be seen in the replay. A line counts as in the file in examples/.
 */

/** @typedef {[line: number, ask: string, answer: string]} Question */

/** @type {{[name: string]: Question[]}} */
const MAILBOXES = {
    "first-message": [
        [
            4,
            "Host 0/1 sends again on the same link, before it has an answer. What does the network say?",
            "Refused: one message at a time may be out on a link, so that an answer needs no number.",
        ],
    ],
    "a-script-checked-first": [
        [
            4,
            "A message is out on link 5. May a second one follow it?",
            "No, it is refused until the first has its answer.",
        ],
    ],
    "two-flows": [
        [
            9,
            "Link 5 is free again, and link 6 still has no answer. Host 0/1 sends on both. What happens?",
            "On link 6 it is refused. On link 5 the message goes out.",
        ],
    ],
    "no-such-host": [
        [
            5,
            "There is no IMP 3. What happens to a message for it?",
            "It goes out, and Dead waits for its sender at once.",
        ],
    ],
    "a-host-stops-and-starts": [
        [
            12,
            "Host 0/1 has stopped, and its message still waits for host 0/2. May it start?",
            "No: a host that starts has nothing outstanding. The message has to be taken or given up first.",
        ],
    ],
    "a-host-writes-to-itself": [
        [
            10,
            "Host 0/1 stopped while a message from itself waited for it. It has started again. What does it take?",
            "Nothing: the message went with the stop, and its answer, too.",
        ],
    ],
    "a-message-given-up": [
        [
            4,
            "The network has given the message up. What does host 0/2 get when it takes?",
            "Nothing. The message was thrown away, and its sender gets Incomplete.",
        ],
        [
            11,
            "This message was taken, and then given up. Which answer does its sender get?",
            "Incomplete, though it was taken. This answer promises nothing either way.",
        ],
    ],
    "a-sender-stops-before-its-rfnm": [
        [
            7,
            "Host 0/1 stopped before it took its RFNM, and has started again. What does it know of its message?",
            "Nothing. The answer went with the host, and the link is free.",
        ],
    ],
};

/** @type {{[name: string]: Question[]}} */
const SUBNET = {
    "three-imps-in-a-row": [
        [
            3,
            "How many lines does the message cross until host 0/3 can take it?",
            "Two: IMP 2 sends it further to IMP 3.",
        ],
    ],
    "no-route-is-dead-at-once": [
        [
            1,
            "No round has passed yet, so IMP 1 knows no route to IMP 2. What happens to a message?",
            "It goes out, and Dead waits for its sender at once.",
        ],
    ],
    "a-repeat-is-taken-once": [
        [
            6,
            "The same frame arrives a second time. Does host 0/2 get the message twice?",
            "No. The channel's bit shows the IMP that it is a repeat: it is acknowledged again and thrown away.",
        ],
    ],
    "a-frame-is-garbled": [
        [
            6,
            "The frame came with a wrong checksum. What does host 0/2 get?",
            "Nothing. Its IMP refused the frame and acknowledged nothing, so the packet is still in its channel at IMP 1.",
        ],
    ],
    "harvard-tells-lies": [
        [
            10,
            "Harvard's IMP says that it is next to everybody. Does Utah's second message reach UCLA?",
            "Not now: it goes to and fro between that IMP and a neighbour that believes it. Once the IMP is stopped, routes become right again, and it arrives.",
        ],
    ],
    "an-rfnm-arrives-three-times": [
        [
            13,
            "The RFNM has arrived three times. How many answers does host 0/1 get?",
            "One: the repeats are thrown away.",
        ],
    ],
    "a-host-that-stops-gives-dead": [
        [
            6,
            "The message waited for its host, which has stopped. Which answer comes back?",
            "Dead: it was not taken, and never will be.",
        ],
    ],
    "a-host-stops-with-a-message": [
        [
            10,
            "Host 0/2 is down. Does this message get another answer than the one before, which had arrived?",
            "No: Dead, since neither was taken.",
        ],
    ],
    "a-host-comes-up-when-settled": [
        [
            4,
            "Host 0/1 stopped with a message out. May it start at once?",
            "No: not before the message has come to its end.",
        ],
    ],
    "an-imp-comes-up-when-its-past-is-gone": [
        [
            5,
            "IMP 1 has forgotten its numbers, and its old frame is still on the line. May it start?",
            "No: the old frame could be taken for a new message with the same number.",
        ],
        [
            10,
            "The frames are gone. IMP 2 still keeps the number of the old message. May IMP 1 start now?",
            "No: a new message 0 would be taken for the old one. IMP 2 has to forget first.",
        ],
    ],
    "a-late-duplicate-after-a-restart": [
        [
            9,
            "IMP 1 has lost its numbers, and an old frame is still on the line. May it start now?",
            "No. It would begin at number 0 again, and the old frame could be taken for the new message 0.",
        ],
        [
            18,
            "The old frames are gone, and IMP 2 has forgotten the number. May IMP 1 start now?",
            "Yes: nothing from before the stop is left.",
        ],
    ],
    "give-up-waits-until-nothing-is-alive": [
        [
            5,
            "The only frame is lost. May the message be given up now?",
            "No: IMP 1 still holds the packet in a channel, and would send it again.",
        ],
    ],
    "abandon-frees-a-slot": [
        [
            7,
            "One piece of the message is in a slot of IMP 2, and the other is lost. May the message be given up?",
            "No: the piece in the slot is alive. An operator has to throw the slot away (`abandon`).",
        ],
    ],
    "rerouted-over-a-triangle": [
        [6, "The line from IMP 1 to IMP 2 is cut. How does the RFNM come back?", "Over IMP 3."],
    ],
    "a-cut-line-and-the-way-round": [
        [
            9,
            "The line is cut, and the frame on it is lost. Does the message arrive?",
            "Yes, over IMP 3: IMP 1 holds the packet until it is acknowledged.",
        ],
    ],
    "slots-are-held": [
        [
            37,
            "All eight slots of IMP 2 are held. Which of host 0/3's two messages gets in?",
            "The one of a single packet, which needs no slot. The long one is sent again and again.",
        ],
        [
            39,
            "Nothing will complete the eight messages. May they be given up?",
            "Not while a slot holds a piece of them.",
        ],
    ],
    "reassembly-lockup": [
        [
            121,
            "All slots of IMP 4 are held, and all channels to it are full. What will twenty rounds change?",
            "Nothing. 24 packets wait for one another.",
        ],
    ],
    "arpanet-of-december-1969": [
        [
            9,
            "The line from UCLA to SRI is cut. How will UTAH's next message come to UCLA, and does UTAH notice?",
            "Over UCSB. UTAH's host learns nothing of routes.",
        ],
        [
            18,
            "UTAH can't be reached any more, but UCLA, SRI and UCSB don't know it. What happens to their distances?",
            "They count up: each believes the neighbour that is nearer, and adds a line, until 63: no route.",
        ],
    ],
    "arpanet-of-december-1970": [
        [
            6,
            "The line from UTAH to MIT is cut while a message for MIT is on its way from UCLA. What becomes of it?",
            "It comes to MIT by the other way across the country, over RAND and BBN, and UCLA gets its RFNM.",
        ],
        [
            14,
            "No line joins east and west any more, and UCLA doesn't know it yet. Which answer does its message get?",
            "None, while the west counts to infinity: the message is lost, and has to be given up.",
        ],
    ],
    "arpanet-of-april-1971": [
        [
            7,
            "ILLINOIS, which is between UTAH and MIT, stops. How will a message from UTAH come to MIT?",
            "Over SDC, RAND and BBN.",
        ],
    ],
    "arpanet-of-august-1972": [
        [
            10,
            "The line from UTAH to ILLINOIS is cut while a message is on its way from UCLA. How does it come to MIT?",
            "After some rounds to and fro in the west it goes from UTAH over BOULDER, GWC, CASE, RADC and LINCOLN.",
        ],
    ],
    "arpanet-of-september-1973": [
        [
            10,
            "NORSAR and LONDON are an island now. What becomes of LONDON's message for HAWAII?",
            "It goes to and fro between the two, which count to infinity, and LONDON gets no answer.",
        ],
    ],
    "arpanet-of-july-1977": [
        [
            13,
            "Two ways across the country are cut. How does UCLA's next message come to MIT44?",
            "By the south, over NOSC, AFWL, TEXAS and SCOTT, and then over GWC, ARGONNE and ILLINOIS.",
        ],
    ],
    "how-long-until-utah-is-gone": [
        [
            12,
            "61 rounds have passed. Which answer does UCLA's host get to a message for UTAH?",
            "Dead, at once: the route would have 63 lines, which means no route.",
        ],
    ],
};

/** @type {{[name: string]: Question[]}} */
const ANSWERS_LOST = {
    "an-rfnm-is-lost": [
        [
            12,
            "The RFNM's frame is lost. May the message be given up now?",
            "No: IMP 2 still holds the RFNM in a channel, and would send it again.",
        ],
        [
            15,
            "IMP 2 has lost the RFNM with its end of the line. Which answer will the sender get?",
            "Incomplete, though its message was taken.",
        ],
    ],
    "an-rfnm-is-lost-and-asked-for": [
        [
            11,
            "The message was taken, but its RFNM is lost. What can its sender learn now?",
            "Only Incomplete: nobody is asked who knows what became of it.",
        ],
        [
            20,
            "IMP 1 asks IMP 2 what became of the message. What can IMP 2 answer?",
            "That it was taken: it keeps the fate of the last message, and sends a new RFNM.",
        ],
    ],
    "a-dead-is-lost-and-asked-for": [
        [
            11,
            "The host stopped while the message waited, and has started again. IMP 2 is asked. What does it answer?",
            "Dead: the message went with the stop.",
        ],
    ],
    "a-question-overtakes-its-message": [
        [
            5,
            "The question arrives before the message. What does IMP 2 answer about a message that it has not seen?",
            "Never. It notes the number first, so the message is thrown away when it comes.",
        ],
        [
            10,
            "The sender got “not taken”. Can the message be taken twice if it is sent once more?",
            "No: the first one can never be taken.",
        ],
    ],
    "a-question-about-a-message-that-waits": [
        [
            6,
            "The message waits for its host, and is asked for. What does IMP 2 answer?",
            "Nothing: no answer would be sure to stay true.",
        ],
    ],
    "a-question-after-a-restart": [
        [
            21,
            "IMP 2 has forgotten that it took the message. May it start while the message has no answer?",
            "No: asked about it, IMP 2 would say Never of a message that was taken.",
        ],
    ],
    "an-old-frame-acknowledges": [
        [
            20,
            "The frame of the first message arrives again while the third is out. Both have bit 0. What does IMP 2 do?",
            "It takes it for a new packet and acknowledges it.",
        ],
        [
            26,
            "The frame of the third message is lost. Do twenty rounds bring the message?",
            "No: IMP 1 got an acknowledgement, so it sends nothing again.",
        ],
    ],
    "a-destination-that-lags": [
        [
            50,
            "IMP 2 has seen none of the messages 1, 2 and 3. Does it accept message 4?",
            "Yes: a number up to 32,767 ahead of the last one is new.",
        ],
        [
            62,
            "The frame of message 0 arrives once more, and no channel knows it. Is its message taken again?",
            "No: its number is old.",
        ],
    ],
};

/** @type {{[name: string]: Question[]}} */
const PROGRAMS = {
    "a-connection-opens-and-closes": [
        [
            5,
            "Host 0/2 listens, and host 0/1 asks. What has to pass until both ends are open?",
            "RTS one way, and STR the other.",
        ],
    ],
    "a-connection-and-its-book": [
        [
            9,
            "The connection is open. May host 0/2 send?",
            "Not before a grant (ALL): one message and 40 bits here.",
        ],
    ],
    "resets-that-cross": [
        [3, "Both hosts contact each other at the same time. Does one of the two fail?", "No: both become ready."],
    ],
    "resets-that-cross-event-by-event": [
        [
            8,
            "Host 0/2 owes an RRP. May it go out now?",
            "No: RST and RRP wait until nothing of their host is without an answer.",
        ],
    ],
    "a-reset-that-fails-and-one-that-works": [
        [
            5,
            "Host 0/2 took the RST, and the network gave it up. What does the user of host 0/1 learn?",
            "That the contact failed, though host 0/2 is ready.",
        ],
    ],
    "resets-in-step": [
        [
            14,
            "The new RST and the RRP for the old one go out in the same round. When is host 0/1 ready?",
            "Not in these rounds: each RRP comes before the RFNM of the new RST, so it doesn't count.",
        ],
    ],
    "two-contacts-in-step": [
        [
            9,
            "No host stops, and no frame is lost. Does the reset end in twelve rounds?",
            "No: two resets go round in step.",
        ],
    ],
    "one-user-in-step": [
        [
            11,
            "Only one user ever contacts, nothing is lost, and no host stops. Does the reset end?",
            "No: in every other round host 0/2 learns of one more reset.",
        ],
    ],
    "a-half-open-connection": [
        [
            14,
            "Host 0/2 has forgotten the connection. What does it do with a grant for it?",
            "It ignores it: the message is taken, and nothing follows.",
        ],
        [16, "The new program of host 0/2 has contacted nobody. May it ask for a connection?", "No, that is refused."],
    ],
    "a-request-is-refused": [
        [5, "Nobody listens on socket 33. What comes back?", "CLS: the request is over before it was open."],
    ],
    "a-message-split-by-its-allocation": [
        [
            8,
            "13 octets are to be sent, and 100 bits were granted. How many octets go?",
            "12. The last one waits for 4 more bits.",
        ],
    ],
    "sent-within-the-allocation-and-asked-back": [
        [8, "104 bits are to be sent, and 100 bits were granted. How many go?", "96: whole bytes of 8 bits."],
        [10, "One message and 4 bits are left of the grant, and all is asked back. What comes back?", "Both, by RET."],
    ],
    "bits-are-asked-back": [
        [
            11,
            "3 messages and 920 bits are unused. Half of the messages and all bits are asked back. What comes back?",
            "1 message, since half of 3 is rounded down, and 920 bits.",
        ],
        [14, "2 messages are left of the grant, and no bits. What happens to the byte AA?", "It waits for a grant."],
    ],
    "interrupts-both-ways": [
        [
            6,
            "Which end may interrupt: the receiver, or the sender?",
            "Both: INR from the receiver, INS from the sender.",
        ],
    ],
    "an-octet-is-echoed": [
        [4, "Host 0/1 sends ECO with the octet 65. What comes back?", "ERP with the same octet."],
    ],
    "a-restart-in-mid-stream": [
        [
            17,
            "Two messages were taken. The third waited for its host, which stopped. What does the sender get?",
            "Dead, and its end of the connection is over.",
        ],
    ],
    "a-link-given-again": [
        [
            13,
            "The sender closes while its last message has no answer. Does CLS go out now?",
            "No: it waits for that answer, so nothing is left on the link when it is given again.",
        ],
    ],
    "a-stream-over-a-line-that-loses-frames": [
        [
            11,
            "The frame with the grant was lost. Does the octet arrive?",
            "Yes: the IMPs send again what isn't acknowledged.",
        ],
    ],
    "refusals-of-socket-calls": [
        [7, "65,535 messages are granted already. May one more be?", "No: the counter has 16 bits."],
        [9, "Socket 16 receives. May its host send from it?", "No: even sockets receive, and odd ones send."],
    ],
    "lo-of-login": [
        [
            20,
            "The host at SRI has stopped. Which answer will UCLA get to its G?",
            "Dead: SRI did not take it and never will.",
        ],
        [
            23,
            "SRI knows nothing of the old connection. What has to happen before the two can talk again?",
            "A reset: RST and RRP pass, and only then a new connection is asked for.",
        ],
    ],
    "lo-of-login-with-two-messages": [
        [
            18,
            "Two messages were granted, and two are used. What happens to the G?",
            "It waits at UCLA's host, and is never sent.",
        ],
    ],
};

/** @type {{[name: string]: Question[]}} */
const SERVICES = {
    "from-a-terminal-to-a-server": [
        [
            10,
            "A line is typed at host 0/1. How does it come back to the terminal?",
            "It goes to the echo service on socket 100, which sends the same bits back from 101.",
        ],
    ],
    "a-service-that-is-not-there": [
        [7, "Nobody serves on socket 9. What does the user learn?", "That the request was refused, by CLS."],
    ],
    "a-stranger-at-the-server": [
        [
            7,
            "Sockets 100 and 101 are opened by somebody who never asked on socket 7. Is that the server's user?",
            "No: the server fails.",
        ],
    ],
    "two-users-at-one-server": [
        [7, "Two users ask one server. What happens to the second?", "It is refused: socket 7 listens no longer."],
        [
            9,
            "The second user types a line. Where does it go?",
            "Nowhere: its terminal never started, so it is refused.",
        ],
    ],
    "bytes-of-five-bits-come-back": [
        [19, "One byte of five bits was sent. Does it come back, though it is no octet?", "Yes, at once."],
    ],
    "bytes-of-seven-bits-come-back": [
        [
            18,
            "A service that sent octets got 7 bits. What could it send back?",
            "Nothing. This one sends its bytes of 7 bits back.",
        ],
    ],
    "arpanet-of-the-late-seventies": [
        [
            18,
            "The middle way fails while the echo is still in the east. Does the echo arrive?",
            "Yes, over the southern way.",
        ],
    ],
};

/** @type {{[name: string]: Question[]}} */
const STRANGERS = {
    "a-request-that-takes-a-listener": [
        [
            14,
            "Host 0/1 asks for socket 33, too. Who has the connection?",
            "The stranger: it asked first, and a socket listens for anybody. Host 0/1 is refused by CLS.",
        ],
    ],
    "a-stolen-socket": [
        [
            14,
            "The stranger's CLS names the two sockets of the connection of 0/1 and 0/2. What does host 0/2 do?",
            "It answers ERR: with the stranger it has no such connection.",
        ],
    ],
    "a-storm-of-resets": [
        [
            22,
            "RST, RRP and RST are out in one message, and a letter waits for host 0/1. What does host 0/2 send?",
            "The letter, since no reset of another host touches that connection; and one RRP, for both RSTs.",
        ],
    ],
    "data-past-the-grant": [
        [
            18,
            "Three octets are out, and two are granted. How many does host 0/1 take?",
            "None: the message is answered by ERR, and the whole grant is left.",
        ],
    ],
    "a-log-among-strangers": [
        [
            17,
            "The stranger sends two octets. Whose lives does the book have after this?",
            "Only the life at 0/1, which takes them: what 0/2 has is its own.",
        ],
    ],
    "a-trace-among-strangers": [
        [
            2,
            "The stranger's RST waits for host 0/2. What waits for the stranger after this round?",
            "The RFNM for its RST, and an RRP: in a calm a stranger takes nothing.",
        ],
    ],
};

/** The questions of each lesson, by its name. */
export const QUESTIONS = { ...MAILBOXES, ...SUBNET, ...ANSWERS_LOST, ...PROGRAMS, ...SERVICES, ...STRANGERS };

/** The subjects of the lessons that belong to no hour, and the names of theirs. */
export const SUBJECTS = /** @type {[string, string[]][]} */ ([
    ["Mailboxes", Object.keys(MAILBOXES)],
    ["A subnet", Object.keys(SUBNET)],
    ["Answers that are lost, and questions", Object.keys(ANSWERS_LOST)],
    ["Hosts with their programs", Object.keys(PROGRAMS)],
    ["Services", Object.keys(SERVICES)],
    ["Among strangers", Object.keys(STRANGERS)],
]);
