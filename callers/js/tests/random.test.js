// Random cases beside the C library: PEP440_ANSWERS is the program of answers.c, PEP440_CASES how many cases there are (100,000).
import assert from 'node:assert/strict';
import { spawnSync } from 'node:child_process';
import { test } from 'node:test';
import { pep440 } from './package.js';

const COUNT = Number(process.env.PEP440_CASES ?? 100000), SEED = Number(process.env.PEP440_SEED ?? 440);

let state = SEED;
// the generator of Numerical Recipes, its upper half
const below = (n) => (state = (Math.imul(state, 1664525) + 1013904223) >>> 0, Math.floor((state / 2 ** 32) * n));
const one = (...of) => of[below(of.length)];
const maybe = (share, make) => (below(100) < share ? make() : '');

const number = () => one('0', '1', '2', '3', '7', '10', '007', String(below(3000)), '18446744073709551615', '18446744073709551616');
const small = () => String(below(4));
const release = () => Array.from({ length: 1 + below(4) }, () => (below(12) ? small() : number())).join('.');
const suffix = () => maybe(35, () => one('a', 'b', 'rc', '-alpha.', '_Beta', 'c', '.pre', 'preview') + maybe(90, small))
  + maybe(25, () => one('.post', '-', 'post', '-r', 'rev') + maybe(90, small)) + maybe(25, () => one('.dev', 'dev', '-DEV') + maybe(90, small));
const local = () => maybe(15, () => '+' + Array.from({ length: 1 + below(3) }, () => one('a', 'Ab', '1', '01', 'cu118', '99999999999999999999')).join(one('.', '-', '_')));
const version = () => maybe(10, () => one(' ', 'v', 'V', '\t')) + maybe(8, () => `${small()}!`) + release() + suffix() + local() + maybe(5, () => one(' ', '\n'));
const specifier = () => maybe(10, () => ' ') + one('==', '!=', '<=', '>=', '<', '>', '~=', '===') + maybe(20, () => ' ') + (below(4) ? version() : `${release()}.*`);
const list = () => Array.from({ length: below(5) }, specifier).join(one(',', ', '));

// Now and then a character is changed, left out or put in, also one beyond ASCII, or a half of one.
function mutated(string) {
  if (below(5)) return string;
  const at = below(string.length + 1), put = one('', '.', '*', '!', '+', '-', 'x', ',', '=', '~', ' ', '0', 'é', '\u3000', '\u{1f40d}', '\ud800', '\udc00', '\0', '\u0004');
  return string.slice(0, at) + put + string.slice(at + below(2));
}

const aVersion = () => mutated(version()), aList = () => mutated(list());
const versions = () => Array.from({ length: below(8) }, aVersion);

// A half of a pair is the byte 255 to the library.
const hex = (string) => `.${(string.isWellFormed() ? Buffer.from(string) : Buffer.of(255)).toString('hex')}`;
const text = (found) => Buffer.from(found).toString('hex');

function caught(call) {
  try {
    return call();
  } catch (error) {
    if (error.name !== 'Pep440Error') throw error;
    return error;
  }
}

const STATUSES = { INVALID_VERSION: '1 ', INVALID_LIST: '2 ', NUMBER_AT_MAX: '5 ', NO_SET: '12 ' };
const orNull = (found, status) => (found === null ? status : `0 ${text(found)}`);
const orError = (call, write) => {
  const found = caught(call);
  return found instanceof Error ? STATUSES[found.code] : write(found);
};
const message = (fault, string) => (string.isWellFormed() ? `0 ${text(fault?.message ?? '')}` : null);

function keysWritten(intervals) {
  const keys = intervals.flat().map((key) => key ?? Buffer.of());
  let end = 0;
  return `${keys.map((key) => `${end += key.length} `).join('')}0 ${text(Buffer.concat(keys))}`;
}

// For each call its letter, its strings, and the package's answer as answers.c prints it; null if there is nothing to compare.
const CALLS = [
  ['n', () => [aVersion()], (v) => orNull(pep440.valid(v), '1 ')],
  ['e', () => [aVersion()], (v) => message(pep440.versionError(v), v)],
  ['s', () => [mutated(specifier()).replaceAll(',', ';')], (s) => message(pep440.listErrors(s)[0], s)],
  ['l', () => [aList()], (l) => orNull(pep440.normalizeList(l), '2 ')],
  ['k', () => [aVersion()], (v) => orNull(pep440.sortKey(v), '1 ')],
  ['v', () => [aVersion()], (v) => orNull(pep440.compile(v), '1 ')],
  ['i', () => [aList()], (l) => orNull(pep440.compileList(l), '2 ')],
  ['w', () => [aList()], (l) => orError(() => pep440.witness(l), (found) => `0 ${text(found ?? '')}`)],
  ['c', () => [aVersion(), aVersion()], (a, b) => orError(() => pep440.compare(a, b), (order) => `0 ${text([order])}`)],
  ['a', () => [aList(), aVersion()], (l, v) => (pep440.satisfies(v, l) ? '0 01' : null)],
  ['f', () => [aList(), ...versions()], (l, ...vs) => orNull(pep440.marks(vs, l), '2 ')],
  ['b', () => [aList()], (l) => orError(() => pep440.boundaries(l), keysWritten)],
  ['o', () => versions(), (...vs) => orError(() => pep440.sort(vs), (sorted) => `0 ${text(places(vs, sorted))}`)],
];

// Where each of the sorted strings stood: equal strings in the order given.
function places(versions, sorted) {
  const left = new Map();
  versions.forEach((it, i) => left.set(it, [...(left.get(it) ?? []), i]));
  return sorted.map((it) => left.get(it).shift());
}

test(`${COUNT} random cases as the C library has them`, { skip: !process.env.PEP440_ANSWERS && 'PEP440_ANSWERS is not set' }, () => {
  const cases = Array.from({ length: COUNT }, () => {
    const [letter, make, ask] = one(...CALLS), strings = make();
    return { letter, strings, found: ask(...strings) };
  });
  const input = cases.map(({ letter, strings }) => `${letter} ${strings.map(hex).join(' ')}\n`).join('');
  const ran = spawnSync(process.env.PEP440_ANSWERS, { input, encoding: 'latin1', maxBuffer: 2 ** 30 });
  assert.equal(ran.status, 0);
  const lines = ran.stdout.split('\n').slice(0, -1);
  assert.equal(lines.length, COUNT);
  let compared = 0, valid = 0;
  cases.forEach(({ letter, strings, found }, i) => {
    if (letter === 'a') assert.equal(found === '0 01', lines[i] === '0 01', JSON.stringify(strings));
    else if (found === null) return;
    else assert.equal(found, letter === 'c' ? lines[i].replace(/^6/, '1') : lines[i], `${letter} ${JSON.stringify(strings)}`);
    compared += 1;
    valid += lines[i].startsWith('0 ');
  });
  assert.ok(compared > 0.9 * COUNT && valid > 0.4 * COUNT, `${compared} compared, ${valid} valid`);
  console.log(`${compared} compared, ${valid} of them with an answer`);
});
