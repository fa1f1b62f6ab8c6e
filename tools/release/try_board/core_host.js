// In place of web/src/core_host.js: the core is a program beside the page, behind tools/release/try_board.py.
export const CLASSES =
  ('KK KQK KRK KBK KNK KPK KQQK KQRK KQBK KQNK KQPK KRRK KRBK KRNK KRPK KBBK KBNK KBPK KNNK KNPK KPPK ' +
    'KQKQ KQKR KQKB KQKN KQKP KRKR KRKB KRKN KRKP KBKB KBKN KBKP KNKN KNKP KPKP')
    .split(' ');
export const ending = line => (/^(answered|ran )/.test(line) ? 'done' : line.replace(/^stopped /, ''));

export function makeCore() {
  const core = String(Math.random());
  let tables = [];
  /** A head in a line of JSON, then the parts; the answer is made in the same way. */
  function request(head, ...parts) {
    const call = new XMLHttpRequest();
    call.open('POST', SERVER, false);
    call.responseType = 'arraybuffer';
    call.send(new Blob([JSON.stringify({core, ...head}), '\n', ...parts]));
    if (call.status !== 200) throw new Error('no memory is left');
    const all = new Uint8Array(call.response), end = all.indexOf(10);
    return {head: JSON.parse(new TextDecoder().decode(all.subarray(0, end))), body: all.subarray(end + 1)};
  }
  function load(name, bytes) {
    if (!CLASSES.includes(name)) throw new Error('no class ' + name);
    request({kind: 'load', name}, bytes);
    tables = [...tables.filter(other => other !== name), name];
  }
  function keepOnly(names) {
    tables = tables.filter(name => names.includes(name));
  }
  function answer(words, script, pages) {
    const {head, body} = request({kind: 'answer', tables, pages, request: words}, script);
    const line = body.indexOf(10);
    let at = head.length;
    const saved = head.saved.map(([name, length]) => [name, body.slice(at, at += length)]);
    return {
      bytes: body.slice(line + 1, head.length),
      ended: ending(new TextDecoder().decode(body.subarray(0, line))),
      saved
    };
  }
  return {load, keepOnly, answer, size: () => 0};
}
