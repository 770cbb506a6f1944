/** What the lessons are about whose files say nothing of themselves at their heads: the page puts it there as a comment. */

/** @type {{[name: string]: string}} */
export const INTRODUCTIONS = {
    "first-message":
        "Two hosts, and between them nothing but mailboxes. One sends, the other takes, and the first learns that its message was taken.",
    "a-message-given-up":
        "A message is out, and nobody takes it. The network gives it up, and tells its sender so, whatever becomes of it.",
    "two-flows": "Each link from one host to another carries one message at a time, and one link doesn't wait for another.",
    "a-host-stops-and-starts": "What a host may do that stops while messages from it and for it are under way, and what it finds when it starts.",
    "a-host-writes-to-itself": "A host may send to itself. What becomes of its message when it stops in between?",
    "a-script-checked-first": "A script that asks for things that can't be. Each is refused by name, and changes nothing.",
    "no-such-host": "Messages to hosts and IMPs that are not there: whose sender learns what?",
    "a-sender-stops-before-its-rfnm": "A message was taken, and its sender stops before it can hear of that.",
    "three-imps-in-a-row": "A message on its way over three IMPs. They find the way by themselves, since each tells its neighbours its distances.",
    "a-repeat-is-taken-once":
        "A frame may arrive more than once. One bit for each channel of a line is enough to take its packet once.",
    "a-frame-is-garbled": "Noise on a line: a frame arrives with a wrong checksum, and so does an acknowledgement.",
    "an-rfnm-arrives-three-times": "Not only messages come twice: here the same answer arrives three times.",
    "an-rfnm-is-lost": "The message is taken, and the answer that says so is lost for good with an end of the line.",
    "an-rfnm-is-lost-and-asked-for": "The same loss twice: once the message is given up, and once its IMP asks what became of it.",
    "a-dead-is-lost-and-asked-for": "A host stops while a message waits for it, and the answer that says so is lost, too.",
    "a-question-overtakes-its-message": "An IMP asks what became of a message that is still on the line. The question arrives first.",
    "a-question-about-a-message-that-waits": "A message waits for its host. What can its IMP answer, when it is asked?",
    "a-question-after-a-restart": "The IMP that knew what became of a message stops. When may it come up, and what may it answer then?",
    "a-cut-line-and-the-way-round": "A line is cut while a frame is on it. The packet goes another way.",
    "rerouted-over-a-triangle": "Three IMPs in a triangle. A line fails under a message, and its answer has to find another way back.",
    "a-late-duplicate-after-a-restart":
        "An IMP that stops forgets all numbers. What has to be gone before it may come up and begin at 0 again?",
    "an-imp-comes-up-when-its-past-is-gone": "The same without words: each refusal names the next thing that is in the way.",
    "a-host-stops-with-a-message": "A message waits for a host that stops, and the next one finds it down. Both senders learn it.",
    "a-host-that-stops-gives-dead": "A message has reached its IMP, and its host stops before it takes it.",
    "a-host-comes-up-when-settled": "A host stops with a message of its own outstanding. It may not start before that one has its end.",
    "give-up-waits-until-nothing-is-alive":
        "Giving a message up is refused as long as anything of it is alive: a late answer would be taken for that of the next one.",
    "no-route-is-dead-at-once": "Before the IMPs have exchanged distances, nobody knows a route.",
    "abandon-frees-a-slot": "Half of a long message is lost for good, and the other half holds a slot until an operator throws it away.",
    "slots-are-held": "An IMP collects pieces in eight slots. Eight messages lose their second pieces.",
    "reassembly-lockup":
        "Two hosts send long messages to a third. Each IMP does what it should, and together they can't move any more. The ARPANET had this.",
    "a-connection-opens-and-closes": "Two users open a connection between their hosts, and close it: RTS, STR, and a CLS each way.",
    "an-octet-is-echoed": "The smallest dialogue of two hosts that have reset: ECO goes, and ERP comes back with the same octet.",
    "interrupts-both-ways": "An open connection, and each end interrupts the other: INR and INS.",
    "sent-within-the-allocation-and-asked-back": "A receiver grants two messages and 100 bits. What goes, what waits, and what comes back?",
    "refusals-of-socket-calls": "What a host's program doesn't do for its user, and why: each refusal has its name.",
    "resets-that-cross": "Two hosts contact each other at the same time, over a subnet.",
    "a-reset-that-fails-and-one-that-works": "The line fails under the first reset, and its answer is lost. The second one works.",
    "a-bad-line": "A script with a line that is no event. Nothing is run, and the line is named.",
    "an-unknown-event": "A script with a word that no event has. Nothing is run, and the word that may be meant is named.",
};
