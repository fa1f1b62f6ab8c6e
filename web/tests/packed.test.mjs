// Bytes that stand in the page as letters.
import test from 'node:test';
import assert from 'node:assert/strict';
import {bytesOf} from '../src/packed.js';

test('five letters stand for four bytes', () => {
  assert.deepEqual([...bytesOf('4 !!!!!')], [0, 0, 0, 0]);
  assert.deepEqual([...bytesOf('4 !!!!#')], [0, 0, 0, 1]);
  assert.deepEqual([...bytesOf('4 !!!#!')], [0, 0, 0, 85]);
  assert.deepEqual([...bytesOf('5 !!!!#!!!!!')], [0, 0, 0, 1, 0]);
  assert.deepEqual([...bytesOf('4 #!!!!')], [3, 28, 132, 177]);  // 85 ** 4 is 0x31c84b1
});
