// Has the service worker keep the files of these pages, for a phone without a line.

import { LANGUAGES } from "../parts/words.js";

const WORDS = /\/words\/\w\w\//;

/** The files that this page has loaded, and its words in each language. */
function filesOfPage() {
    const loaded = performance
        .getEntriesByType("resource")
        .map(({ name }) => name)
        .filter((name) => /\.(js|css|svg)$/.test(name));
    const own = [
        "../css/phone.css", "../css/driver.css", "../words/en/driver.js", "../words/en/sent.js"
    ].map((name) => new URL(name, import.meta.url).href),
        all = [...loaded, ...own];
    const words = all.filter((name) => WORDS.test(name)).flatMap((name) =>
        LANGUAGES.map((it) => name.replace(WORDS, `/words/${it}/`))
    );
    return [...new Set([...all, ...words])];
}

let isKept = false;

/** Until they are kept, at each reading of a manifest. A browser without service workers keeps
 * nothing, and the page works with a line.
 */
export async function keepFiles() {
    if (isKept || !navigator.serviceWorker) return;
    try {
        // (what is taken at need alone is needed without a line too)
        await Promise.all([
            import("../parts/signing.js"),
            import("../parts/subject.js"),
            import("../parts/sent.js"),
            import("../parts/reads.js"),
            import("../parts/screen.js"),
            import("../parts/manifest-copies.js")
        ]);
        await navigator.serviceWorker.register(new URL("../service-worker.js", import.meta.url));
        const { active } = await navigator.serviceWorker.ready, answer = new MessageChannel();
        answer.port1.onmessage = () => {
            isKept = true;
        };
        active?.postMessage({ keep: filesOfPage() }, [answer.port2]);
    } catch {
        // (it is tried again)
    }
}
