// @ts-check
// Long work in parts: between them the page takes what the user does.
const PART = 40, MANY_LINES = 20000;
/** @param {string[]} lines */
export async function pauseIfLong(lines) {
  if (lines.length > MANY_LINES) await new Promise(on => setTimeout(on));
}
/** Whether a part has taken its milliseconds, and the pause behind it. */
export function pauses() {
  let began = performance.now();
  return {
    isDue: () => performance.now() - began > PART,
    async pause() {
      await new Promise(on => setTimeout(on));
      began = performance.now();
    }
  };
}
