// @ts-check
// The tables that this browser keeps: files by class name, in IndexedDB; in memory alone where that is refused.

export function makeStore(name = 'studyboard') {
  const here = /** @type {Map<string, Blob>} */ (new Map());  // only what IndexedDB did not take
  let opened = /** @type {Promise<IDBDatabase> | null} */ (null);
  /**
   * @template T
   * @param {IDBRequest<T>} request
   * @returns {Promise<T>}
   */
  const settled = request => new Promise((ok, no) => {
    request.onsuccess = () => ok(request.result);
    request.onerror = () => no(request.error);
  });
  function base() {
    return opened = opened || new Promise((ok, no) => {
      const request = indexedDB.open(name, 1);
      request.onupgradeneeded = () => request.result.createObjectStore('tables');
      request.onsuccess = () => ok(request.result);
      request.onerror = () => no(request.error);
    });
  }
  /** @param {IDBTransactionMode} mode */
  const objects = async mode => (await base()).transaction('tables', mode).objectStore('tables');
  return {
    /** @returns {Promise<string[]>} */
    async names() {
      const kept = await objects('readonly').then(s => settled(s.getAllKeys())).catch(() => []);
      return [...new Set([...here.keys(), ...kept.map(String)])];
    },
    /**
     * @param {string} key
     * @returns {Promise<Blob | undefined>}
     */
    async get(key) {
      try {
        const blob = here.get(key) || await settled((await objects('readonly')).get(key));
        return blob instanceof Blob ? blob : undefined;
      } catch { return undefined; }
    },
    /**
     * Whether the browser keeps it; else it lives as long as the page.
     * @param {string} key
     * @param {Blob} blob
     */
    async put(key, blob) {
      try {
        const s = await objects('readwrite');
        const done = new Promise((ok, no) => {
          s.transaction.oncomplete = ok;
          s.transaction.onabort = s.transaction.onerror = () => no(s.transaction.error);
        });
        s.put(blob, key);
        await done;
        here.delete(key);
        return true;
      } catch {
        here.set(key, blob);
        return false;
      }
    },
    /** @param {string} key */
    async remove(key) {
      here.delete(key);
      await objects('readwrite').then(s => settled(s.delete(key))).catch(() => {});
    },
  };
}
