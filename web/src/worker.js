// @ts-check
// The worker around one core: messages in, one answer each, in their order.
//   {id, kind: 'start', module}                      a compiled module
//   {id, kind: 'load', name, bytes}                   a table's file (an ArrayBuffer, transferred)
//   {id, kind: 'keep', names}                         the other tables are dropped
//   {id, kind: 'answer', request, script, pages}     -> {bytes, ended, saved: [[name, bytes] ..]}
//   {id, kind: 'read', blob, wanted, digested}       -> {bytes, digest}: a file and its SHA-256, each where it is
//                                                    wanted, without a core
// Each answer has {id, ms, memory}, or {id, failed} after a trap: then the page ends this worker.
import {makeCore} from './core_host.js';

/** @type {ReturnType<typeof makeCore> | null} */
let core = null;
/**
 * @param {any} message
 * @returns {any}
 */
function act(message) {
  if (message.kind === 'start') {
    core = makeCore(message.module);
    return {};
  }
  if (!core) throw new Error('no core yet');
  if (message.kind === 'load') {
    core.load(message.name, new Uint8Array(message.bytes));
    giveBack(message.bytes);  // the core has a copy
    return {};
  }
  if (message.kind === 'keep') {
    core.keepOnly(message.names);
    return {};
  }
  return core.answer(message.request, message.script, message.pages);
}
/**
 * Gives memory back now, and not once the worker happens to look for it: a message that nobody receives takes it along.
 * @param {ArrayBuffer} buffer
 */
function giveBack(buffer) {
  const {port1, port2} = new MessageChannel();
  port1.postMessage(null, [buffer]);
  port1.close();
  port2.close();
}
/** @param {{blob: Blob, wanted: boolean, digested: boolean}} task */
async function read({blob, wanted, digested}) {
  const buffer = await blob.arrayBuffer(),
        digest = digested ? new Uint8Array(await crypto.subtle.digest('SHA-256', buffer)) : [];
  if (!wanted) giveBack(buffer);
  return {
    bytes: wanted ? new Uint8Array(buffer) : new Uint8Array(0),
    digest: [...digest].map(b => b.toString(16).padStart(2, '0')).join('')
  };
}
self.onmessage = async e => {
  const began = performance.now(), id = e.data.id;
  try {
    const done = e.data.kind === 'read' ? await read(e.data) : act(e.data);
    const moved =
      [done.bytes, ...(done.saved || []).map((/** @type {any} */ s) => s[1])].filter(Boolean).map(b => b.buffer);
    /** @type {any} */ (self).postMessage(
      {id, ...done, ms: performance.now() - began, memory: core ? core.size() : 0}, moved);
  } catch (fault) {
    const {name, message} = /** @type {Error} */ (fault);
    self.postMessage({id, failed: `${name}: ${message}`});
  }
};
