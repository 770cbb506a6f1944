/**
 * Reads the topology of an input: which IMPs, hosts and lines there are, and the names of the sites.
 *
 * The program reads topologies as TOML 1.1 and refuses what is wrong; `faults.js` says why. This reader takes the part
 * of TOML that a topology can need: tables, keys, strings, whole numbers, booleans, lists and inline tables.
 */

/**
 * @typedef {object} Site
 * @property {number} number the IMP's number, 1 to 63
 * @property {number} hosts how many hosts it has, 0 to 4
 * @property {string} name of the comment after its number, "" if there is none
 * @property {string[]} machines that its hosts are, as far as the comment names them
 * @property {{north: number, east: number} | null} place in degrees
 */

/**
 * @typedef {object} Network
 * @property {boolean} plain whether there are mailboxes only, without IMPs and lines
 * @property {boolean} raw whether the script itself sends and takes, without host programs
 * @property {Site[]} sites the IMPs in order of their numbers
 * @property {string[]} hosts all hosts in order of IMP and host
 * @property {string[]} strangers those that run no program, while others do
 * @property {[number, number][]} lines the two IMPs of each line
 * @property {Set<string>} numbered the flows whose messages are named with their numbers, since in the replay two of them
 *   are alive at once
 */

/** @typedef {any} Value a text, a whole number, a boolean, a list or a table */

/**
 * A document's tables, and the line of each table and each key.
 *
 * @typedef {object} Document
 * @property {{[key: string]: Value}} values
 * @property {Map<object, Map<string, number>>} places for each table the lines of its keys; "" is the table's own line
 * @property {Map<object, string>} comments for each table of an IMP the comment after `id`
 */

/** Why a document can't be read, and in which of its lines, from 1. */
export class Unreadable extends Error {
    /**
     * @param {string} why
     * @param {number} line
     */
    constructor(why, line) {
        super(why);
        this.line = line;
    }
}

/** A reader of values: the text and how far it has come. */
class Reader {
    /** @param {string} text */
    constructor(text) {
        this.text = text;
        this.at = 0;
    }

    line() {
        return this.text.slice(0, this.at).split("\n").length;
    }

    /**
     * @param {string} why
     * @returns {never}
     */
    fail(why) {
        throw new Unreadable(why, this.line());
    }

    /**
     * @param {RegExp} pattern
     * @returns {string | null}
     */
    take(pattern) {
        const found = new RegExp(pattern.source, "y");
        found.lastIndex = this.at;
        const match = found.exec(this.text);
        if (!match) return null;
        this.at += match[0].length;
        return match[0];
    }

    /**
     * Spaces, and where `lines` also line ends and comments.
     *
     * @param {boolean} lines
     */
    blank(lines) {
        this.take(lines ? /(?:[ \t\r\n]|#[^\n]*)*/ : /[ \t]*/);
    }

    /** @returns {Value} */
    value() {
        const letter = this.text[this.at];
        if (letter === "[") return this.list();
        if (letter === "{") return this.inline();
        if (letter === '"') return JSON.parse(this.take(/"(?:[^"\\\n]|\\.)*"/) ?? this.fail("a text has no end"));
        if (letter === "'") return (this.take(/'[^'\n]*'/) ?? this.fail("a text has no end")).slice(1, -1);
        const word = this.take(/[^\s,\]}#]+/) ?? this.fail("a value is missing");
        if (word === "true" || word === "false") return word === "true";
        const plain = word.replace(/_/g, "");
        if (/^[+-]?(?:0|[1-9]\d*)$|^0x[0-9a-fA-F]+$|^0o[0-7]+$|^0b[01]+$/.test(plain)) return Number(plain);
        return /^[+-]?\d+\.\d+$/.test(plain) ? plain : this.fail(`\`${word}\` is not a value`);
    }

    list() {
        /** @type {Value[]} */
        const found = [];
        this.at += 1;
        for (this.blank(true); !this.take(/\]/); this.blank(true)) {
            found.push(this.value());
            this.blank(true);
            if (!this.take(/,/) && this.text[this.at] !== "]") this.fail("a list has no end");
        }
        return found;
    }

    inline() {
        /** @type {{[key: string]: Value}} */
        const found = {};
        this.at += 1;
        for (this.blank(true); !this.take(/\}/); this.blank(true)) {
            const key = this.key();
            found[key] = this.value();
            this.blank(true);
            if (!this.take(/,/) && this.text[this.at] !== "}") this.fail("an inline table has no end");
        }
        return found;
    }

    /** A key and the sign `=` after it. */
    key() {
        const key = this.take(/[A-Za-z0-9_-]+|"[^"\n]*"/) ?? this.fail("a table or a key with its value is expected");
        this.blank(false);
        if (!this.take(/=/)) this.fail("a key is followed by `=` and its value");
        this.blank(false);
        return key.replace(/^"|"$/g, "");
    }
}

/**
 * The tables of a document.
 *
 * @param {string} text
 * @returns {Document}
 */
export function readDocument(text) {
    const reader = new Reader(text.replace(/^\ufeff/, "").replace(/\r\n/g, "\n"));
    /** @type {Document} */
    const document = { values: {}, places: new Map(), comments: new Map() };
    let table = document.values;
    document.places.set(table, new Map([["", 1]]));
    for (reader.blank(true); reader.at < reader.text.length; reader.blank(true)) {
        const line = reader.line();
        const head = reader.take(/\[\[\s*[A-Za-z0-9_-]+\s*\]\]/);
        if (head) {
            const name = head.replace(/[\[\]\s]/g, "");
            const list = document.values[name] ?? [];
            if (!Array.isArray(list)) throw new Unreadable(`\`${name}\` is a key and a table`, line);
            table = {};
            document.values[name] = [...list, table];
            document.places.set(table, new Map([["", line]]));
        } else {
            const key = reader.key();
            if (key in table) throw new Unreadable(`\`${key}\` is twice in its table`, line);
            table[key] = reader.value();
            document.places.get(table)?.set(key, line);
            const comment = /^[ \t]*#[ \t]*([^\n]*)/.exec(reader.text.slice(reader.at));
            if (key === "id" && comment) document.comments.set(table, comment[1].trim());
        }
        reader.blank(false);
        if (!/^(?:$|[\r\n#])/.test(reader.text.slice(reader.at, reader.at + 1))) {
            reader.fail("there is more on the line after its value");
        }
    }
    return document;
}

/**
 * The network of a topology that the program accepts.
 *
 * @param {string} text what comes before the marker
 * @returns {Network}
 */
export function readTopology(text) {
    const { values, comments } = readDocument(text);
    /** @type {Site[]} */
    const sites = [];
    /** @type {string[]} */
    const strangers = [];
    for (const imp of tables(values.imp)) {
        if (Array.isArray(imp.foreign)) strangers.push(...imp.foreign.map((host) => `${host}/${imp.id}`));
        sites.push({ number: Number(imp.id), hosts: Number(imp.hosts), ...readSite(comments.get(imp) ?? "") });
    }
    sites.sort((a, b) => a.number - b.number);
    const hosts = sites.flatMap((site) => Array.from({ length: site.hosts }, (_, host) => `${host}/${site.number}`));
    /** @type {[number, number][]} */
    const lines = tables(values.line).map((line) => [Number(line.a), Number(line.b)]);
    const numbered = new Set();
    return { plain: values.carrier === "plain", raw: values.raw === true, sites, hosts, strangers, lines, numbered };
}

/**
 * What the comment after an IMP's number says (docs/program.md): `UCLA [Sigma 7] @ 34.07 -118.44`. One in another form
 * is a name as a whole.
 *
 * @param {string} comment
 * @returns {Pick<Site, "name" | "machines" | "place">}
 */
export function readSite(comment) {
    const form = /^([^[@]*?)\s*(?:\[([^\]]*)\])?\s*(?:@\s*(-?\d+(?:\.\d+)?)\s+(-?\d+(?:\.\d+)?))?\s*$/;
    const found = form.exec(comment);
    if (!found) return { name: comment, machines: [], place: null };
    const [, name, machines, north, east] = found;
    return {
        name,
        machines: machines ? machines.split(",").map((it) => it.trim()) : [],
        place: north === undefined ? null : { north: Number(north), east: Number(east) },
    };
}

/**
 * The machine that a host is; "" where nobody says it.
 *
 * @param {Network} network
 * @param {string} host
 */
export function machineOf(network, host) {
    const [place, imp] = host.split("/").map(Number);
    return network.sites.find((it) => it.number === imp)?.machines[place] ?? "";
}

/**
 * The tables of a list, as far as it has any.
 *
 * @param {Value | undefined} list
 * @returns {{[key: string]: Value}[]}
 */
export function tables(list) {
    /** @type {{[key: string]: Value}[]} */
    const found = [];
    for (const it of Array.isArray(list) ? list : []) if (typeof it === "object" && !Array.isArray(it)) found.push(it);
    return found;
}

/**
 * The number of a host's IMP.
 *
 * @param {string} host
 * @returns {number}
 */
export function impOf(host) {
    return Number(host.split("/")[1]);
}

/**
 * The lines of an IMP, in order: its ports.
 *
 * @param {Network} network
 * @param {number} imp
 * @returns {number[]}
 */
export function linesOf(network, imp) {
    let found = PORTS.get(network);
    if (!found) {
        found = Array.from({ length: MOST_IMPS + 1 }, () => []);
        for (const [line, ends] of network.lines.entries()) for (const end of ends) found[end]?.push(line);
        PORTS.set(network, found);
    }
    return found[imp] ?? [];
}

const MOST_IMPS = 63;

/** @type {WeakMap<Network, number[][]>} of each network by IMP its lines: they are asked for at each step */
const PORTS = new WeakMap();

/**
 * The IMP at the other end of a line.
 *
 * @param {Network} network
 * @param {number} line
 * @param {number} imp
 * @returns {number}
 */
export function farEnd(network, line, imp) {
    const [a, b] = network.lines[line];
    return a === imp ? b : a;
}

/**
 * The IMPs from which and to which a direction of a line leads.
 *
 * @param {Network} network
 * @param {number} line
 * @param {string} way `+` or `-`
 * @returns {[number, number]}
 */
export function wayOf(network, line, way) {
    const [a, b] = network.lines[line];
    return way === "+" ? [a, b] : [b, a];
}

/**
 * A site by its name where it has one: UCLA, or IMP 1.
 *
 * @param {Network} network
 * @param {number} imp
 * @returns {string}
 */
export function siteName(network, imp) {
    return network.sites.find((site) => site.number === imp)?.name || `IMP ${imp}`;
}

/**
 * An IMP in words: UCLA's IMP, or IMP 1.
 *
 * @param {Network} network
 * @param {number} imp
 * @returns {string}
 */
export function impName(network, imp) {
    const name = network.sites.find((site) => site.number === imp)?.name;
    return name ? `${name}'s IMP` : `IMP ${imp}`;
}

/**
 * A host in words: UCLA where it is the site's only host, UCLA's Sigma 7 or UCLA's host 1/1 where there are more, host
 * 0/1 where the site has no name.
 *
 * @param {Network} network
 * @param {string} host
 * @returns {string}
 */
export function hostName(network, host) {
    const site = network.sites.find((it) => it.number === impOf(host));
    if (!site?.name || Number(host.split("/")[0]) >= site.hosts) return `host ${host}`;
    if (site.hosts === 1) return site.name;
    return `${site.name}'s ${site.machines[Number(host.split("/")[0])] || `host ${host}`}`;
}
