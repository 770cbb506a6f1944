/** The oldest Node that runs the program: the first one that was tried. */

const OLDEST = 18;

/** Whether this Node is too old, which is said then. */
export function isTooOld() {
    if (Number(process.versions.node.split(".")[0]) >= OLDEST) return false;
    const others = `Node ${OLDEST} or later runs this program, and so does a browser that opens dorydate.html`;
    process.stderr.write(`arpasim: Node ${process.versions.node} is too old: ${others}\n`);
    process.exitCode = 1;
    return true;
}
