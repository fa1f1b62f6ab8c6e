// @ts-check
// Which table is built next: several at a time, in order, whoever wants them. A table that needs another first says so,
// and waits until one more is made. And which table is read next.

/** @typedef {{left: Set<string>, ok: () => void, no: (why: any) => void}} Want */
/**
 * @param {number} most      how many at a time
 * @param {(name: string) => Promise<boolean>} make      false where a table that it needs is not there yet
 * @param {(builds: {running: string[], waiting: string[], made: number}) => void} report      both lists are empty once
 *     all is made
 */
export function makeBuilds(most, make, report) {
  const running = /** @type {Set<string>} */ (new Set()), tried = /** @type {Map<string, number>} */ (new Map());
  let waiting = /** @type {string[]} */ ([]), wants = /** @type {Want[]} */ ([]), made = 0, failed = false;
  /** @param {string} name */
  function start(name) {
    const before = made;
    waiting.splice(waiting.indexOf(name), 1);
    running.add(name);
    make(name).then(done => ended(name, done, before), why => {
      fail(why);
      ended(name, true, before);
    });
  }
  /**
   * @param {string} name
   * @param {boolean} done
   * @param {number} before
   */
  function ended(name, done, before) {
    running.delete(name);
    if (!done) {
      tried.set(name, before);
      waiting.push(name);
    } else {
      made++;
      for (const want of wants)
        if (want.left.delete(name) && !want.left.size) want.ok();
      wants = wants.filter(want => want.left.size);
    }
    go();
  }
  /** @param {any} why */
  function fail(why) {
    const all = wants;
    [waiting, wants, failed] = [[], [], true];
    all.forEach(want => want.no(why));
  }
  function begin() {
    [made, failed] = [0, false];
    tried.clear();
  }
  function go() {
    if (failed && !running.size) begin();
    if (!failed)
      for (const name of [...waiting])
        if (running.size < most && tried.get(name) !== made) start(name);
    if (!failed && !running.size && waiting.length) fail(new Error(`the table ${waiting[0]} could not be built`));
    report({running: [...running], waiting: [...waiting], made});
    if (!running.size) begin();
  }
  return {
    /**
     * Settles when all of these are made. What is wanted last is begun first, since somebody waits for it now.
     * @param {string[]} names      in the order in which they can be built one after the other
     * @returns {Promise<void>}
     */
    want: names => new Promise((ok, no) => {
      if (!names.length) return ok();
      wants.push({left: new Set(names), ok, no});
      const fresh = names.filter(name => !running.has(name));
      waiting = [...fresh, ...waiting.filter(name => !fresh.includes(name))];
      if (!failed) go();
    }),
    isBusy: () => running.size > 0,
    /** @param {string[]} names */
    isComing: names => names.every(name => running.has(name) || waiting.includes(name)),
  };
}

/**
 * The order in which files are read: the largest first, which takes longest; then the small ones, which are there at
 * once; then the others by size.
 * @param {string[]} names
 * @param {(name: string) => number} sizeOf
 * @param {number} small
 */
export function readingOrder(names, sizeOf, small) {
  const [first, ...rest] = [...names].sort((x, y) => sizeOf(y) - sizeOf(x)),
                isSmall = (/** @type {string} */ name) => sizeOf(name) <= small;
  return names.length ? [first, ...rest.filter(isSmall), ...rest.filter(name => !isSmall(name))] : [];
}
