// The databases of this browser: one way to open one, and one way to read and write in it. No other
// file opens any.

const PATIENCE = 5_000;

/** @typedef {<Found>(store: string, mode: IDBTransactionMode, act: (store: IDBObjectStore) =>
 * IDBRequest<Found> | void) => Promise<Found>} Within
 */
/** @typedef {<Found>(mode: IDBTransactionMode, act: (store: IDBObjectStore) => IDBRequest<Found> |
 * void) => Promise<Found>} WithinStore
 */

/** Opens a database in its first version, and makes its stores where it is new. It fails where
 * there is none, or none within some seconds.
 * @param {string} name
 * @param {(database: IDBDatabase) => void} make
 * @param {() => void} gone what is done once it is closed
 * @returns {Promise<IDBDatabase>}
 */
const openedOf = (name, make, gone) =>
    new Promise((given, refused) => {
        // (a browser that refuses its stores throws here)
        const request = indexedDB.open(name, 1);
        setTimeout(() => refused(new Error("too slow")), PATIENCE);
        request.onupgradeneeded = () => make(request.result);
        request.onerror = () => refused(request.error);
        request.onsuccess = () => {
            request.result.onclose = gone;
            request.result.onversionchange = () => {
                request.result.close();
                gone();
            };
            given(request.result);
        };
    });

/** A database, which is opened at its first use. What it gives does one thing in a store, and has
 * the result once the whole change is on the disk; it fails where there is no database or no room.
 * atOnce is for acts of one request each: they are done even where the page is being left.
 * @param {string} name
 * @param {(database: IDBDatabase) => void} make
 * @param {{ atOnce?: boolean }} options
 * @returns {Within}
 */
export function databaseOf(name, make, { atOnce = false } = {}) {
    /** @type {Promise<IDBDatabase> | null} */
    let opened = null;
    const gone = () => {
        opened = null;
    };
    /**
     * @template Found
     * @param {string} store
     * @param {IDBTransactionMode} mode
     * @param {(store: IDBObjectStore) => IDBRequest<Found> | void} act
     * @returns {Promise<Found>}
     */
    return async function within(store, mode, act) {
        opened ??= openedOf(name, make, gone);
        opened.catch(gone);
        const database = await opened;
        return new Promise((given, refused) => {
            const change = database.transaction(store, mode, { durability: "strict" });
            change.onabort = () => refused(change.error ?? new Error("aborted"));
            const request = act(change.objectStore(store));
            // (a page that is being left hears of no request any more, and what is not committed
            // then would be undone)
            if (atOnce)
                change.commit?.();
            change.oncomplete = () => given(/** @type {Found} */ (request?.result));
        });
    };
}

/** A database of one store.
 * @param {string} name
 * @param {string} store
 * @param {IDBObjectStoreParameters} [parameters]
 * @param {{ atOnce?: boolean }} [options]
 * @returns {WithinStore}
 */
export function storeOf(name, store, parameters, options) {
    const within = databaseOf(
        name,
        (database) => database.createObjectStore(store, parameters),
        options
    );
    return (mode, act) => within(store, mode, act);
}

/** Whether this browser has a database of this name. (One that cannot say so has none that is
 * known.)
 * @param {string} name
 */
export async function hasDatabase(name) {
    try {
        return (await indexedDB.databases()).some((it) => it.name === name);
    } catch {
        return false;
    }
}
