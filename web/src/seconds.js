// @ts-check
// How long each class takes to be built alone by the module, in seconds: of two and three men and of the five classes
// that KRKP needs as they were measured in node beside other work, of the others reckoned from the native program's.
// The page scales them by what builds take there.
/** @type {Record<string, number>} */
export const SECONDS = {
  KK: 0.1,
  KQK: 0.1,
  KRK: 0.1,
  KBK: 0.1,
  KNK: 0.1,
  KPK: 0.3,
  KQQK: 1.4,
  KQRK: 3,
  KQBK: 2.8,
  KQNK: 2.9,
  KQPK: 8.6,
  KRRK: 1.7,
  KRBK: 3.1,
  KRNK: 4.6,
  KRPK: 11,
  KBBK: 1.5,
  KBNK: 4.5,
  KBPK: 12,
  KNNK: 0.4,
  KNPK: 10,
  KPPK: 5,
  KQKQ: 4,
  KQKR: 6.8,
  KQKB: 7,
  KQKN: 7,
  KQKP: 15,
  KRKR: 2.8,
  KRKB: 3,
  KRKN: 3.9,
  KRKP: 17,
  KBKB: 0.7,
  KBKN: 0.7,
  KBKP: 8,
  KNKN: 0.7,
  KNKP: 11,
  KPKP: 13
};
