// @ts-check
// Bytes in a text: five letters stand for four bytes, which takes a fifteenth less room than base64.
/** The 85 letters in their order: those that are printed, without quotation marks, &, -, <, >, \, ` and ~. */
const LETTERS =
  Array.from({length: 94}, (_, i) => String.fromCharCode(33 + i)).filter(letter => !'"&\'-<>\\`~'.includes(letter));

/**
 * The bytes of a text, which begins with their number: `5 abcdefghij`.
 * @param {string} text
 */
export function bytesOf(text) {
  const [count, letters] = text.trim().split(' '), digits = new Uint8Array(128),
                bytes = new Uint8Array(letters.length / 5 * 4);
  LETTERS.forEach((letter, i) => {
    digits[letter.charCodeAt(0)] = i;
  });
  const words = new DataView(bytes.buffer);
  for (let at = 0; at < letters.length; at += 5) {
    let word = 0;
    for (let i = at; i < at + 5; i++) word = word * 85 + digits[letters.charCodeAt(i)];
    words.setUint32(at / 5 * 4, word);
  }
  return bytes.subarray(0, Number(count));
}
