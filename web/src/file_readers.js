// @ts-check
// Files of tables, each with its digest, read by workers: a digest of 17 MB blocks the thread that computes it, though
// it is a promise.

/**
 * A file's bytes and its digest, each empty where it was not wanted.
 * @typedef {{bytes: Uint8Array, digest: string}} Read
 * @typedef {{blob: Blob, wanted: boolean, digested: boolean, ok: (file: Read) => void, no: (why: Error) => void}} Task
 */
const MOST = 3, REST = 2000;

/** @param {() => Worker} spawn */
export function makeReaders(spawn) {
  const resting = /** @type {Worker[]} */ ([]), waiting = /** @type {Task[]} */ ([]);
  let working = 0, timer = 0;
  function go() {
    clearTimeout(timer);
    if (!working && !waiting.length)
      timer = setTimeout(() => resting.splice(0).forEach(worker => worker.terminate()), REST);
    while (working < MOST && waiting.length) begin(/** @type {Task} */ (waiting.shift()));
  }
  /** @param {Task} task */
  function begin({blob, wanted, digested, ok, no}) {
    const worker = resting.pop() || spawn();
    working++;
    worker.onmessage = ({data}) => {
      working--;
      resting.push(worker);
      if (data.failed) no(new Error(data.failed));
      else ok(data);
      go();
    };
    worker.onerror = e => {
      working--;
      worker.terminate();
      no(new Error(e.message || 'the worker did not start'));
      go();
    };
    worker.postMessage({id: 0, kind: 'read', blob, wanted, digested});
  }
  /** Workers are started before there is anything to read. */
  function start() {
    while (working + resting.length < MOST) {
      const worker = spawn();
      worker.onerror = () => {
        worker.terminate();
        if (resting.includes(worker)) resting.splice(resting.indexOf(worker), 1);
      };
      resting.push(worker);
    }
    go();
  }
  /**
   * @param {Blob} blob
   * @param {{wanted?: boolean, digested?: boolean}} what
   * @returns {Promise<Read>}
   */
  const read = (blob, {wanted = true, digested = true} = {}) => new Promise((ok, no) => {
    waiting.push({blob, wanted, digested, ok, no});
    go();
  });
  return {
    start,
    read,
    /** @param {Blob} blob */
    digest: async blob => (await read(blob, {wanted: false})).digest,
  };
}
