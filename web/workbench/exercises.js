/** Exercises that judge themselves: a task, a network, and a goal as a pattern of what is printed. */

import { headOf } from "./schedules.js";

/**
 * @typedef {object} Exercise
 * @property {string} name
 * @property {string} title
 * @property {string} task
 * @property {string} network as searches spell it
 * @property {string} goal
 * @property {number} shortest how many events the shortest script has that is known
 * @property {string} hint for who is stuck
 */

const TAKEN = "out A B N .. then not out A B N .. then in A B N .. then not out A B N .. then";

/** @type {Exercise[]} */
export const EXERCISES = [
    {
        name: "exercise-an-rfnm",
        title: "1. An RFNM",
        task: "Send a message from UCLA to SRI, so that UCLA learns that it was taken.",
        network: "raw UCLA-SRI",
        goal: "out 0/1 0/2 N .. then in 0/1 0/2 N .. then answer rfnm 0/1 0/2 N",
        shortest: 3,
        hint: "A message goes out by `out`, is taken by `take`, and its answer is taken by another `take`. Let rounds pass by + round in between.",
    },
    {
        name: "exercise-dead-at-once",
        title: "2. Dead at once",
        task: "Let UCLA send a message for which Dead waits at once, though nobody has stopped.",
        network: "raw UCLA-SRI",
        goal: "not down .. then out 0/1 0/2 N .. then answer dead 0/1 0/2 N",
        shortest: 2,
        hint: "Whom does a site know before the first round has passed? Or send to a host that isn't there.",
    },
    {
        name: "exercise-dead-under-way",
        title: "3. Dead under way",
        task: "Let SRI take one message. Then let its host stop while another one is out, so that UCLA gets Dead for that.",
        network: "raw UCLA-SRI",
        goal: "in 0/1 0/2 M .. then out 0/1 0/2 N .. then not in 0/1 0/2 N .. then down 0/2 then not up .. "
            + "then answer dead 0/1 0/2 N",
        shortest: 6,
        hint: "Send once and let a round pass, then send again. Stop SRI's host before the message comes, and let rounds pass.",
    },
    {
        name: "exercise-the-other-way-round",
        title: "4. The other way round",
        task: "Send two messages on two links, and let SRI take the second one first.",
        network: "raw UCLA-SRI",
        goal: "out A B M .. then not answer _ A B M then out A B N .. then not answer _ A B M then in A B N .. "
            + "then not answer _ A B M then in A B M .. where M != N",
        shortest: 5,
        hint: "Two messages on two links are out at once. On a line, frames needn't arrive in their order: look at deliver under Possible.",
    },
    {
        name: "exercise-given-up-and-not-taken",
        title: "5. Given up, and not taken",
        task: "Lose a message for good, so that it can be given up: UCLA gets Incomplete, and SRI has not taken it.",
        network: "raw UCLA-SRI",
        goal: "out 0/1 0/2 N .. then not in .. then answer incomplete 0/1 0/2 N",
        shortest: 5,
        hint: "What is lost is sent again, as long as its IMP keeps it. Stop what keeps it, or cut the line at both ends; then look for giveup.",
    },
    {
        name: "exercise-taken-and-incomplete",
        title: "6. Taken, and Incomplete",
        task: "Cut lines so that UCLA is told Incomplete, though SRI has taken the message.",
        network: "raw UCLA-SRI",
        goal: `${TAKEN} answer incomplete A B N`,
        shortest: 7,
        hint: "Let the message arrive and be taken. Then its RFNM must be lost for good: cut the line at both ends before it is through. Then giveup.",
    },
    {
        name: "exercise-three-refusals",
        title: "7. Three refusals",
        task: "Be refused in three ways: Blocked, StillAlive and Unsettled.",
        network: "raw UCLA-SRI",
        goal: "refused Blocked and refused StillAlive and refused Unsettled",
        shortest: 6,
        hint: "Send twice on one link. Give up while something of the message is alive. Stop a host with a message out, and start it again.",
    },
    {
        name: "exercise-eight-bits",
        title: "8. Eight bits",
        task: "The hosts have programs now. Open a connection, grant what it needs, and carry eight bits.",
        network: "UCLA-SRI",
        goal: "opened .. then sent A S 8 then arrived B T 8 where A != B",
        shortest: 8,
        hint: "contact comes first. One host listens, the other opens; the receiver grants; then send. Rounds bring all that there.",
    },
    {
        name: "exercise-resets-in-step",
        title: "9. Resets in step",
        task: "Let two hosts reset each other for ever, without a stop and without a loss.",
        network: "UCLA-SRI",
        goal: "not down .. then out .. and calm 50: no ready, 100 lines",
        shortest: 4,
        hint: "Contact from both sides, and contact once more before the first reset is done: one host has to be a step ahead.",
    },
    {
        name: "exercise-half-open",
        title: "10. Half open",
        task: "A host stops and starts. Leave the other one with an open end of a connection whose partner is gone.",
        network: "plain UCLA SRI",
        goal: "not pairreset .. then up A then not down .. then life B T A S _ _ _ .. open and life A S B T .. ended "
            + "and calm 20: nothing",
        shortest: 7,
        hint: "Open a connection, then stop and start one host. The other one hears of it only when it is told something.",
    },
];

/**
 * An exercise as an input: its task, its goal, its network, and an empty script.
 *
 * @param {Exercise} exercise
 */
export function inputOf({ task, network, goal, shortest, hint }) {
    const of = [`# Goal: ${goal}`, `# Shortest known: ${shortest} events`, `# Hint: ${hint}`];
    const head = [`# ${task}`, ...of, ...headOf(network)];
    return [...head, "%", ""].join("\n");
}
