// Files read by workers: three at a time, each answer to its own question.
import assert from 'node:assert/strict';
import {test} from 'node:test';
import {makeReaders} from '../src/file_readers.js';

/** Workers that answer on demand, a file named `bad` by a fault and one named `dead` by none at all. */
function fakes() {
  const requests = [];
  let spawned = 0, ended = 0;
  const spawn = () => {
    spawned++;
    const worker = {
      terminate() { ended++; },
      postMessage({kind, blob}) {
        assert.equal(kind, 'read');
        requests.push(() => {
          if (blob === 'dead') worker.onerror({message: 'gone'});
          else
            worker.onmessage(
              {data: blob === 'bad' ? {failed: 'NotReadableError: bad'} : {bytes: blob, digest: 'of ' + blob}});
        });
      },
    };
    return worker;
  };
  return {spawn, requests, counts: () => [spawned, ended]};
}

test('three files are read at a time, by workers that are used again', async () => {
  const {spawn, requests, counts} = fakes(), readers = makeReaders(spawn);
  const answers = ['a', 'b', 'c', 'd', 'e'].map(blob => readers.read(blob));
  assert.equal(requests.length, 3);
  requests[1]();
  assert.equal(requests.length, 4);
  requests[0]();
  requests[3]();
  requests[2]();
  requests[4]();
  assert.deepEqual((await Promise.all(answers)).map(file => file.digest), ['of a', 'of b', 'of c', 'of d', 'of e']);
  assert.deepEqual(counts(), [3, 0]);
});

test('a file that cannot be read, and a worker that ends, are reported and block nothing', async () => {
  const {spawn, requests, counts} = fakes(), readers = makeReaders(spawn);
  const answers = ['bad', 'dead', 'a', 'b', 'c'].map(blob => readers.read(blob));
  const settled = Promise.allSettled(answers);
  for (let i = 0; i < 5; i++) requests[i]();
  assert.deepEqual((await settled).map(a => a.status === 'fulfilled' ? a.value.digest : a.reason.message),
    ['NotReadableError: bad', 'gone', 'of a', 'of b', 'of c']);
  assert.equal(counts()[1], 1);
});

test('workers are started ahead, once, and one that does not start is not used', async () => {
  const {spawn, requests, counts} = fakes(), made = [], readers = makeReaders(() => {
    made.push(spawn());
    return made[made.length - 1];
  });
  readers.start();
  readers.start();
  assert.deepEqual(counts(), [3, 0]);
  made[2].onerror({message: 'gone'});
  const answers = ['a', 'b', 'c'].map(blob => readers.read(blob));
  assert.deepEqual(counts(), [4, 1]);
  for (let i = 0; i < 3; i++) requests[i]();
  assert.deepEqual((await Promise.all(answers)).map(file => file.digest), ['of a', 'of b', 'of c']);
});
