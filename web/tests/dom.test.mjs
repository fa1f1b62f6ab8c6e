// Elements that are patched in place, over made-up nodes: what is the same at its place is kept, with all below it that
// is the same.
import test from 'node:test';
import assert from 'node:assert/strict';
import {patch} from '../src/dom.js';

/** A node with children, as much of it as `patch` asks for. */
class Made {
  constructor(name) {
    this.name = name;
    this.kids = [];
    this.parent = null;
  }
  get firstChild() { return this.kids[0] || null; }
  get nextSibling() { return this.parent.kids[this.parent.kids.indexOf(this) + 1] || null; }
  insertBefore(kid, at) {
    kid.parent = this;
    this.kids.splice(at ? this.kids.indexOf(at) : this.kids.length, 0, kid);
    return kid;
  }
  remove() {
    this.parent.kids.splice(this.parent.kids.indexOf(this), 1);
    this.parent = null;
  }
}
let made = 0;
/** `a(b c)` as what is wanted: each name is its key. */
const named = name => ({
  key: name,
  make: () => {
    made++;
    return new Made(name);
  }
});
const wanted = list =>
  list.map(item => (typeof item === 'string' ? named(item) : {...named(item[0]), kids: wanted(item[1])}));
const shown = node => node.kids.map(kid => (kid.kids.length ? [kid.name, shown(kid)] : kid.name));

test('what is wanted stands there, and only what differs is made', () => {
  const root = new Made('root');
  const steps = [
    [['a', 'b', ['c', ['d', 'e']]], 5], [['a', 'b', ['c', ['d', 'e']]], 0], [['a', 'b', ['c', ['d', 'e', 'f']]], 1],
    [['a', 'x', ['c', ['d', 'e', 'f']]], 1], [['a', 'x', ['c', ['e', 'f']]], 0], [['a'], 0], [[['a', ['d']], 'b'], 2],
    [['x', 'y', ['a', ['d']], 'z', 'b'], 3], [['b', 'y'], 1], [[], 0], [['c'], 1]
  ];
  for (const [list, most] of steps) {
    made = 0;
    patch(root, wanted(list));
    assert.deepEqual(shown(root), list);
    assert.equal(made, most, JSON.stringify(list));
  }
});
test('a node that is kept is the same one', () => {
  const root = new Made('root');
  patch(root, wanted(['a', ['b', ['c']]]));
  const [first, second] = root.kids;
  patch(root, wanted(['a', ['b', ['c', 'd']], 'e']));
  assert.ok(root.kids[0] === first && root.kids[1] === second && second.kids.length === 2);
});
test('what another hand put there gives way', () => {
  const root = new Made('root');
  root.insertBefore(new Made('a'), null);
  made = 0;
  patch(root, wanted(['a']));
  assert.equal(made, 1);
});
