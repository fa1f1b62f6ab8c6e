// @ts-check
// What takes longer is said to be under way.
import {services} from './state.js';

/** What takes less time is done before it could be said. */
const SOON = 300;
/**
 * Says what is under way until it is done, if it takes long.
 * @param {string} text
 * @param {() => Promise<any>} job
 * @param {() => void} [soon]      what else is done when it is said
 */
export async function underWay(text, job, soon = () => {}) {
  const timer = setTimeout(() => {
    services.telling(text);
    soon();
  }, SOON);
  try {
    await job();
  } finally {
    clearTimeout(timer);
    services.telling('');
  }
}
