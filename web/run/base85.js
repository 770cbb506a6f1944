const DIGITS = "0123456789ABCDEFGHIJKLMNOPQRSTUVWXYZabcdefghijklmnopqrstuvwxyz!#$%&()*+-;,=>?@^_.{|}~";
const VALUES = new Uint8Array(128).fill(DIGITS.length - 1);
for (let at = 0; at < DIGITS.length; at += 1) VALUES[DIGITS.charCodeAt(at)] = at;

/**
 * The octets of a text in base85, as the packer (`python/workshop/wasm/pack.py`) spells them: five digits for four
 * octets, and one more than the octets for those that are left.
 *
 * @param {string} text
 * @returns {Uint8Array}
 */
export function octetsOf(text) {
    const groups = Math.ceil(text.length / 5);
    const octets = new DataView(new ArrayBuffer(4 * groups));
    for (let group = 0; group < groups; group += 1) {
        let value = 0;
        for (let at = 5 * group; at < 5 * group + 5; at += 1) {
            value = 85 * value + (at < text.length ? VALUES[text.charCodeAt(at)] : 84);
        }
        octets.setUint32(4 * group, value);
    }
    return new Uint8Array(octets.buffer, 0, text.length - groups);
}
