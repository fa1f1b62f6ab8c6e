// @ts-check
// How long tables still take to be built: several at a time, each once those that it needs are there.
import {NEEDS} from './needs.js';
import {SECONDS} from './seconds.js';
/**
 * A class, and the seconds that its table takes, or that are left of them.
 * @typedef {{name: string, seconds: number}} Build
 */
/** @typedef {{running: string[], waiting: string[], made: number}} Builds */

/** @param {string} name */
const secondsOf = name => SECONDS[name] || 5;
/** @param {string} name */
export const needsOf = name => (NEEDS[name] || '').split(' ').filter(Boolean);

/**
 * The seconds until all builds are done. Each begins, in their order, once a place is free and none of those that it
 * needs is left; one that was begun too early waits for them, too.
 * @param {{running: Build[], waiting: Build[], most: number}} builds      `most` at a time
 * @param {(name: string) => string[]} needs
 */
export function secondsLeft({running, waiting, most}, needs = needsOf) {
  const isBlocked = (/** @type {Build} */ {name}, /** @type {Build[]} */ others) =>
    needs(name).some(need => others.some(other => other.name === need));
  const all = [...running, ...waiting], isEarly = (/** @type {Build} */ build) => isBlocked(build, all);
  let at = running.filter(build => !isEarly(build)), left = [...waiting, ...running.filter(isEarly)], now = 0;
  while (at.length || left.length) {
    const able = left.filter(build => !isBlocked(build, [...at, ...left])),
          begun = able.slice(0, Math.max(0, most - at.length));
    for (const {name, seconds} of begun) at.push({name, seconds: now + seconds});
    left = left.filter(build => !begun.includes(build));
    if (!at.length) return now;
    now = Math.min(...at.map(({seconds}) => seconds));
    at = at.filter(({seconds}) => seconds > now);
  }
  return now;
}
/**
 * What is left of a build: the rest of what it was to take; of one that takes longer, a quarter of what it took so far.
 * @param {number} expected
 * @param {number} elapsed
 */
export const restOf = (expected, elapsed) => Math.max(expected - elapsed, elapsed / 4);
/**
 * How many times as long as listed builds take: over those that ended, and those that run for longer.
 * @param {{took: number, listed: number}[]} builds
 */
export function paceOf(builds) {
  const sum = (/** @type {'took' | 'listed'} */ key) => builds.reduce((n, build) => n + build[key], 0);
  return sum('listed') > 2 ? sum('took') / sum('listed') : 1;
}
/** @param {number} seconds */
const aboutTime = seconds => (seconds >= 90 ? `about ${Math.round(seconds / 60)} minutes`
    : seconds > 30 ? `about ${Math.round(seconds / 5) * 5} s`
                   : `about ${Math.round(seconds)} s`);
/**
 * The words for builds that are under way: `Building KRKP: about 17 s left`.
 * @param {string[]} names      those that are being built
 * @param {number} made
 * @param {number} all
 * @param {number} left
 */
export const progressText = (names, made, all, left) =>
  `Building ${names.join(', ')}: ${left >= 1 ? `${aboutTime(left)} left` : 'almost done'}, ${made} of ${all} ` +
  `table${all === 1 ? '' : 's'} done. Each is built once and kept.`;

/**
 * Follows the builds, and reports them twice a second; null once all are made.
 * @param {number} most      how many at a time
 * @param {(p: import('./tables.js').Progress | null) => void} report
 */
export function makeWaiting(most, report) {
  const began = /** @type {Map<string, number>} */ (new Map());
  let spent = {took: 0, listed: 0}, ticking = 0, shown = /** @type {Builds} */ ({running: [], waiting: [], made: 0});
  const elapsed = (/** @type {string} */ name) => (performance.now() - (began.get(name) || performance.now())) / 1000;
  function pace() {
    const usual = paceOf([spent]), runs = shown.running.map(name => ({took: elapsed(name), listed: secondsOf(name)}));
    return paceOf([spent, ...runs.filter(({took, listed}) => took > usual * listed)]);
  }
  /** @param {string[]} names */
  const whole = names => names.map(name => ({name, seconds: pace() * secondsOf(name)}));
  function reportBuilds() {
    const {running, waiting, made} = shown, all = made + running.length + waiting.length;
    const runs = whole(running).map(({name, seconds}) => ({name, seconds: restOf(seconds, elapsed(name))}));
    const left = secondsLeft({running: runs, waiting: whole(waiting), most}), open = [...running, ...waiting],
          names = running.filter(name => !needsOf(name).some(need => open.includes(need)));
    report({text: progressText(names.length ? names : running, made, all, left), done: made, of: all});
  }
  return {
    /**
     * How long tables will take, as words.
     * @param {string[]} names
     */
    estimate: names => {
      const seconds = secondsLeft({running: [], waiting: whole(names), most});
      return seconds > 45 && seconds < 90 ? 'about a minute' : aboutTime(Math.max(5, Math.ceil(seconds / 5) * 5));
    },
    /**
     * A build has begun, or is not begun any more.
     * @param {string} name
     * @param {boolean} is
     */
    begin: (name, is) => void (is ? began.set(name, performance.now()) : began.delete(name)),
    /**
     * A table was built: what it took counts, and what earlier ones took counts for less, since the load changes.
     * @param {string} name
     */
    end: name => {
      const listed = secondsOf(name), less = 0.5 ** (listed / 10);
      spent = {took: less * spent.took + elapsed(name), listed: less * spent.listed + listed};
    },
    /** @param {Builds} builds */
    show: builds => {
      shown = builds;
      clearInterval(ticking);
      ticking = 0;
      if (!builds.running.length) return report(null);
      ticking = setInterval(reportBuilds, 500);
      reportBuilds();
    }
  };
}
