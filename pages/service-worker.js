// Keeps the files of these pages for a phone without a line. With a line every file comes from the
// site, as ever; without one, all come from the last whole set. What needs a key never passes
// through here: the pages ask for it by fetch, which is left alone.
//
// A set is named by the digest of what is in its files, so a new version of any file is a new set.
// The set is taken when a page has loaded and says which files it needed; files that these import
// are taken with them. A set that is not whole is never used.
{
    const SETS = "desk-pages-", OPEN_FILES = "desk-open-files", WHOLE = "whole";
    const LONGEST_WAIT = 4000;
    /** @typedef {{ waitUntil: (done: Promise<unknown>) => void }} Lasting */
    /** @typedef {{ request: Request, clientId: string, resultingClientId: string, respondWith:
     * (reply: Promise<Response>) => void }} Asking */
    /** @typedef {{ data?: { keep?: unknown }, ports: readonly MessagePort[] }} Saying */
    /** @typedef {{ location: Location, skipWaiting: () => Promise<void>, clients: { claim: () =>
     * Promise<void> }, addEventListener: (name: string, act: (event: Lasting & Asking & Saying) =>
     * void) => void }} Worker what the checker's own table of browsers has of no page */
    const worker = /** @type {Worker} */ (/** @type {unknown} */ (globalThis)),
        home = new URL("./", worker.location.href);
    /** Files that anybody may read and that are no part of the pages. */
    const open = new URL("agency.json", home).href;
    const kinds = new Set(["script", "style", "image", "font"]);
    /** The pages that were loaded from the set, for which the rest comes from there too.
     * @type {Set<string>} */
    const fromSet = new Set();

    /** @param {string} address */
    const plain = (address) => address.replace(/[?#].*$/, "");
    /** @param {string} address */
    const isOurs = (address) => address.startsWith(home.href);
    const whole = new URL(WHOLE, home).href;

    /** The reply of the site, or none where there is no line or nothing begins to come.
     * @param {RequestInfo} request */
    async function fromSite(request) {
        const bound = new AbortController(), clock = setTimeout(() => bound.abort(), LONGEST_WAIT);
        try {
            const reply = await fetch(request, { signal: bound.signal });
            return reply.status < 500 ? reply : null;
        } catch {
            return null;
        } finally {
            clearTimeout(clock);
        }
    }

    /** The set that is used: the last whole one. */
    async function set() {
        for (const name of (await caches.keys()).filter((it) => it.startsWith(SETS)).reverse()) {
            const cache = await caches.open(name);
            if (await cache.match(whole)) return cache;
        }
        return null;
    }

    /** @param {string} address */
    const kept = async (address) => (await set())?.match(address);

    /** @param {Asking} event */
    async function answer({ request, clientId, resultingClientId }) {
        const isPage = request.mode === "navigate",
            address = isPage ? home.href : plain(request.url),
            client = isPage ? resultingClientId : clientId;
        const reply = fromSet.has(client) ? null : await fromSite(request);
        if (reply) return reply;
        const copy = await kept(address);
        if (copy) fromSet.add(client);
        return copy ?? fetch(request);
    }

    /** A file that anybody may read, as it was last read where there is no line.
     * @param {Request} request */
    async function answerOpen(request) {
        const reply = await fromSite(request);
        if (reply?.ok) await keepOpen(reply.clone());
        return reply ?? await (await caches.open(OPEN_FILES)).match(open) ?? Response.error();
    }

    /** Keeps it without its header Date: a copy does not tell what time it is. (A phone without
     * room keeps the copy before.)
     * @param {Response} reply */
    async function keepOpen(reply) {
        try {
            const headers = new Headers(
                [...reply.headers].filter(([name]) => name.toLowerCase() !== "date")
            );
            await (await caches.open(OPEN_FILES)).put(
                open,
                new Response(await reply.blob(), { headers })
            );
        } catch {
            // (nothing waits for it)
        }
    }

    worker.addEventListener("fetch", (event) => {
        const { request } = event, address = plain(request.url);
        if (request.method !== "GET" || request.headers.has("Desk-Key") || !isOurs(address)) return;
        const isPage =
            request.mode === "navigate" &&
            (address === home.href || address === `${home.href}index.html`);
        if (isPage || kinds.has(request.destination)) event.respondWith(answer(event));
        else if (address === open) event.respondWith(answerOpen(request));
    });

    // Taking a set.

    /** What a file names: other files of these pages. A font is none of them, since a page without
     * its font is whole.
     * @param {string} text @param {string} type @param {string} address */
    function namedIn(text, type, address) {
        const form = /html/.test(type)
            ? /\b(?:src|href)="([^"#][^"]*)"/g
            : /css/.test(type)
            ? /(?:@import\s+|url\()"?([^")]+)"?/g
            : /\b(?:from|import)\s*"(\.[^"]+)"/g;
        return [...text.matchAll(form)].map(([, name]) => plain(new URL(name, address).href)
        ).filter((it) => isOurs(it) && !it.endsWith(".woff2"));
    }

    /** A file of the site and what is in it; none where the site has no such file.
     * @param {string} address */
    async function file(address) {
        const reply = await fetch(address, {
            cache: "no-cache",
            credentials: "omit",
            redirect: "error"
        });
        if (reply.status === 429 || reply.status >= 500) throw new Error(`${reply.status}`);
        return reply.ok ? { address, reply, text: await reply.clone().text() } : null;
    }

    /** These files and all that they import.
     * @param {string[]} addresses */
    async function filesOf(addresses) {
        const files = new Map(), asked = new Set();
        for (let next = addresses; next.length;) {
            next.forEach((address) => asked.add(address));
            const found = (await Promise.all(next.map(file))).flatMap((it) => (it ? [it] : []));
            found.forEach((it) => files.set(it.address, it));
            const named = found.flatMap(({ text, reply, address }) =>
                namedIn(text, reply.headers.get("content-type") ?? "", address)
            );
            next = [...new Set(named)].filter((address) => !asked.has(address));
        }
        return [...files.values()].sort((a, b) => (a.address < b.address ? -1 : 1));
    }

    /** @param {{ address: string, text: string }[]} files */
    async function nameOf(files) {
        const bytes = new TextEncoder().encode(
            JSON.stringify(files.map(({ address, text }) => [address, text]))
        );
        const digest = new Uint8Array(await crypto.subtle.digest("SHA-256", bytes));
        return SETS +
            [...digest].slice(0, 8).map((byte) => byte.toString(16).padStart(2, "0")).join("");
    }

    /** Takes the files as they are now.
     * @param {string[]} addresses */
    async function take(addresses) {
        const files = await filesOf([
            home.href,
            ...new Set(addresses.map(plain).filter((it) => isOurs(it) && it !== home.href))
        ]);
        const name = await nameOf(files), cache = await caches.open(name);
        if (!await cache.match(whole)) {
            await Promise.all(files.map(({ address, reply }) => cache.put(address, reply)));
            await cache.put(whole, new Response(String(files.length)));
        }
        for (const other of await caches.keys())
            if (other.startsWith(SETS) && other !== name) await caches.delete(other);
    }

    async function takeOpen() {
        const reply = await fetch(open, { cache: "no-cache", credentials: "omit" });
        if (reply.ok) await keepOpen(reply);
    }

    /** @type {Promise<unknown>} */
    let taking = Promise.resolve();

    worker.addEventListener("message", (event) => {
        const addresses = event.data?.keep;
        if (!Array.isArray(addresses)) return;
        // (a line that breaks here leaves the set before as it is)
        taking = taking.then(() => Promise.all([take(addresses.map(String)), takeOpen()])).then(
            () => event.ports[0]?.postMessage("kept"),
            () => {}
        );
        event.waitUntil(taking);
    });

    worker.addEventListener("install", (event) =>
        event.waitUntil(worker.skipWaiting())
    );
    worker.addEventListener("activate", (event) =>
        event.waitUntil(worker.clients.claim())
    );
}
