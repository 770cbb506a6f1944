/** The lessons in the order in which a class takes them, with their questions. */

import { EXERCISES, inputOf } from "./exercises.js";
import { INTRODUCTIONS } from "./introductions.js";
import { QUESTIONS, SUBJECTS } from "./questions.js";

/** @typedef {import("./app.js").Example} Example */
/** @typedef {import("./questions.js").Question} Question */
/** @typedef {{name: string, title: string, text: string, at?: number}} Given an input of the page, and the step at which it opens */

const HOURS = /** @type {[string, string[]][]} */ ([
    [
        "A first hour",
        [
            "first-message",
            "a-message-given-up",
            "a-repeat-is-taken-once",
            "a-late-duplicate-after-a-restart",
            "lo-of-login",
        ],
    ],
    [
        "A second hour",
        [
            "arpanet-of-december-1969",
            "an-rfnm-is-lost-and-asked-for",
            "reassembly-lockup",
            "from-a-terminal-to-a-server",
        ],
    ],
    [
        "The years",
        [
            "arpanet-of-december-1970",
            "arpanet-of-april-1971",
            "arpanet-of-august-1972",
            "arpanet-of-september-1973",
            "arpanet-of-july-1977",
        ],
    ],
    [
        "Exercises, solved",
        [
            "a-sender-stops-before-its-rfnm",
            "an-rfnm-arrives-three-times",
            "how-long-until-utah-is-gone",
            "lo-of-login-with-two-messages",
            "a-question-about-a-message-that-waits",
        ],
    ],
]);

/**
 * The examples in groups, with their questions.
 *
 * @param {Given[]} examples
 * @returns {Example[]}
 */
export function arranged(examples) {
    const left = new Map(examples.map((it) => [it.name, it]));
    const group = (/** @type {string} */ title, /** @type {string[]} */ names) =>
        names.flatMap((name) => {
            const example = left.get(name);
            left.delete(name);
            return example ? [{ ...example, group: title, text: asking(example.text, name) }] : [];
        });
    const hours = HOURS.flatMap(([title, names]) => group(title, names));
    const subjects = SUBJECTS.flatMap(([title, names]) => group(title, names));
    const exercises = EXERCISES.map((it) => (
        { name: it.name, title: it.title, group: "A third hour: exercises that judge themselves", text: inputOf(it) }
    ));
    return [...hours, ...exercises, ...subjects, ...group("What is refused", [...left.keys()])];
}

/**
 * The inputs with which the page opens. One that is an example gets the example's questions.
 *
 * @param {Given[]} inputs
 * @param {Given[]} examples
 * @returns {Example[]}
 */
export function opened(inputs, examples) {
    return inputs.map((it, place) => {
        const { name } = examples.find(({ text }) => text === it.text) ?? { name: "" };
        const text = asking(it.text, name);
        return { ...it, name: `opened-${place + 1}`, group: "Opened with this page", text };
    });
}

/**
 * The text of an example with its introduction, if it has none of its own, and its questions.
 *
 * @param {string} text
 * @param {string} name
 */
function asking(text, name) {
    const introduction = INTRODUCTIONS[name];
    const whole = withQuestions(text, QUESTIONS[name] ?? []);
    return introduction && !text.startsWith("#") ? `# ${introduction}\n${whole}` : whole;
}

/**
 * A text with questions as comments before lines of its script.
 *
 * @param {string} text
 * @param {Question[]} questions
 */
export function withQuestions(text, questions) {
    const lines = text.split("\n");
    const marker = lines.indexOf("%");
    for (const [line, ask, answer] of [...questions].sort(([a], [b]) => b - a)) {
        lines.splice(marker + line, 0, `#? ${ask}`, `#! ${answer}`);
    }
    return lines.join("\n");
}
