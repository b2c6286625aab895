// What a driver's phone reads before the screen that takes it is there (early.js): each reply is
// given once, and to the same key alone.

const LONGEST_READ = 30_000;
/** @type {Map<string, { key: string, reply: Promise<Response> }>} */
const replies = new Map();

/** @param {string} path @param {string} key */
export function readAhead(path, key) {
    const reply = fetch(path, {
        headers: { "Desk-Key": key },
        cache: "no-store",
        credentials: "omit",
        redirect: "error",
        signal: /** @type {import("../types").Signals} */ (AbortSignal).timeout(LONGEST_READ)
    });
    reply.catch(() => {});
    replies.set(path, { key, reply });
}

/** The reply to what was asked early with this key, or null.
 * @param {string} path @param {string} key
 */
export function earlyReply(path, key) {
    const it = replies.get(path);
    replies.delete(path);
    return it && it.key === key ? it.reply : null;
}

/** What nobody has taken by now is old. */
export const dropAhead = () => replies.clear();
