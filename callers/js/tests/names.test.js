// Each name of the package. What is expected is PEP 440's, or, of the names of @renovatebot/pep440, what they are there to return.
import assert from 'node:assert/strict';
import { readFile } from 'node:fs/promises';
import { test } from 'node:test';
import { inspect } from 'node:util';
import { folder, pep440 } from './package.js';

const GREATEST = '18446744073709551615';
const of = (...versions) => versions;

// name, arguments, result
const CASES = {
  valid: [
    [['1.0'], '1.0'], [[' V1.0-Alpha.2\n'], '1.0a2'], [['1!2.0.post1.dev3+Ubuntu-1'], '1!2.0.post1.dev3+ubuntu.1'], [['1.0-1'], '1.0.post1'],
    [['1.0c1'], '1.0rc1'], [['latest'], null], [[''], null], [['1.0.*'], null], [['18446744073709551616'], null], [[GREATEST], GREATEST],
    [['1.0é'], null], [['1.0\u2028'], null], [[undefined], null], [[null], null], [[1], null], [[{}], null],
  ],
  clean: [[['v1.2.3'], '1.2.3'], [['x'], null]],
  parse: [
    [['1!2.3rc4.post5.dev6+ab.7'], { epoch: 1, release: [2, 3], pre: ['rc', 4], post: ['post', 5], dev: ['dev', 6], local: ['ab', 7] }],
    [['1'], { epoch: 0, release: [1], pre: null, post: null, dev: null, local: null }],
    [['1a0.post0.dev0'], { epoch: 0, release: [1], pre: ['a', 0], post: ['post', 0], dev: ['dev', 0], local: null }],
    [['9007199254740991.9007199254740992'], { epoch: 0, release: [9007199254740991, 9007199254740992n], pre: null, post: null, dev: null, local: null }],
    [[`1+${GREATEST}.18446744073709551616.007`], { epoch: 0, release: [1], pre: null, post: null, dev: null, local: [BigInt(GREATEST), '18446744073709551616', 7] }],
    [['x'], null],
  ],
  explain: [
    [['1!1.0a2.dev3+L'], { epoch: 1, release: [1, 0], pre: ['a', 2], post: null, dev: 3, local: 'l', public: '1!1.0a2.dev3', base_version: '1!1.0', is_prerelease: true, is_devrelease: true, is_postrelease: false }],
    [['1.0.post0'], { epoch: 0, release: [1, 0], pre: null, post: 0, dev: null, local: null, public: '1.0.post0', base_version: '1.0', is_prerelease: false, is_devrelease: false, is_postrelease: true }],
    [['x'], null],
  ],
  major: [[['2!3.4.5'], 3]],
  minor: [[['3.4.5'], 4], [['3'], 0]],
  patch: [[['3.4.5.6'], 5], [['3.4'], 0]],
  compare: [[['1.10', '1.9'], 1], [['1.0', '1'], 0], [['1.0.dev1', '1.0a1'], -1], [['1.0+1', '1.0+a'], 1]],
  rcompare: [[['1.10', '1.9'], -1], [['1.0', '1'], 0]],
  lt: [[['1', '2'], true], [['1', '1.0'], false]],
  le: [[['1', '1.0'], true], [['2', '1'], false]],
  eq: [[['1', '1.0'], true], [['1', '1.0+a'], false]],
  ne: [[['1', '1.0'], false], [['1', '2'], true]],
  ge: [[['1', '1.0'], true], [['1', '2'], false]],
  gt: [[['2', '1'], true], [['1', '1.0'], false]],
  inc: [
    [['1.2.3', 'major'], '2.0.0'], [['1.2.3', 'minor'], '1.3.0'], [['1.2.3', 'patch'], '1.2.4'], [['1', 'patch'], '1.0.1'], [['1.2.3.4', 'minor'], '1.3.0.0'],
    [['1.2.3a1', 'patch'], '1.2.3'], [['2.0.0rc1', 'major'], '2.0.0'], [['2.1.0rc1', 'major'], '3.0.0'], [['1!1.2.3', 'major'], '1!2.0.0'],
    [['1.2.3', 'premajor'], '2.0.0a0'], [['1.2.3', 'preminor', 'rc'], '1.3.0rc0'], [['1.2.3', 'prepatch', 'beta'], '1.2.4b0'],
    [['1.2.3', 'prerelease'], '1.2.4a0'], [['1.2.3a1', 'prerelease'], '1.2.3a2'], [['1.2.3a1', 'prerelease', 'rc'], '1.2.3rc0'], [['1.2.3a1', 'prerelease', 'alpha'], '1.2.3a2'],
    [['1.2.3.post1.dev2+l', 'patch'], '1.2.4'], [['9007199254740993.0', 'major'], '9007199254740994.0'], [[`${GREATEST}.0`, 'major'], null],
    [['x', 'major'], null], [['1', 'other'], null], [['1', 'prerelease', 'x'], null], [['1'], null],
  ],
  sort: [[[of('1.10', '1.9', '1.10rc1', '1.9.0')], of('1.9', '1.9.0', '1.10rc1', '1.10')], [[[]], []]],
  satisfies: [
    [['1.19', '>=1.16, <2.0'], true], [['2.0', '>=1.16, <2.0'], false], [['2.0rc1', '>=1.0'], false], [['2.0rc1', '>=1.0', { prereleases: true }], true],
    [['2.0rc1', '>=1.0rc1'], true], [['2.0rc1', '>=1.0rc1', { prereleases: false }], false], [['1.0', '', { prereleases: null }], true], [['1.0', '==1.0.*'], true],
    [['x', '>=1'], false], [['1', 'x'], false], [['1'], false], [[`${GREATEST}.0`, `>=${GREATEST}`], true],
  ],
  filter: [
    [[of('1.0', '2.0rc1', 'x', '2.0', '0.1'), '>=1'], of('1.0', '2.0')], [[of('1.0', '2.0rc1'), '>=1', { prereleases: true }], of('1.0', '2.0rc1')], [[of('2.0rc1', '0.1'), '>=1'], of('2.0rc1')],
    [[of('2.0rc1'), '>=1', { prereleases: false }], []], [[of('1.0', '2.0rc1'), '>=1.0rc1'], of('1.0', '2.0rc1')], [[of('1.0'), 'x'], []], [[[], ''], []],
  ],
  maxSatisfying: [[[of('1.0', '2.0', '2', '3.0rc1'), '>=1'], '2.0'], [[of('3.0rc1', '1'), '>=2'], '3.0rc1'], [[of('1'), '>=2'], null], [[of('1', '2rc1'), '', { prereleases: true }], '2rc1']],
  minSatisfying: [[[of('2', '1.0', '1', '1.0a1'), '<3'], '1.0'], [[of('1'), '>=2'], null]],
  marks: [[[of('1.0', '2.0rc1', 'x', '0.1'), '>=1'], Uint8Array.of(1, 3, 2, 0)], [[of('1'), 'x'], null]],
  validRange: [[['>=1.0,<2'], true], [[''], true], [['~=1'], false], [['=>1'], false], [[undefined], false]],
  normalizeList: [[['<2.0,>=1.16'], '>=1.16, <2.0'], [['x'], null]],
  specifiers: [[['<2,>=V1'], [{ operator: '>=', version: '1' }, { operator: '<', version: '2' }]], [[''], []]],
  isEmpty: [[['>1,<1'], true], [['>=1'], false], [['==1.0, ==1'], false]],
  intersect: [[['>=2.0', '<2.6, !=2.1.*'], '>=2.0, !=2.1.*, <2.6'], [['', '>=1'], '>=1'], [['>=1', ''], '>=1'], [['', ''], '']],
  isSubset: [
    [['>=1.5,<2', '>=1'], true], [['>=1', '>=1.5,<2'], false], [['>1,<1', '==3'], true], [['', '>=0.dev0'], true], [['', '>=0'], false], [['>=1', ''], true], [['!=1.5', '!=1.5.*'], false],
    [['!=1.5.*', '!=1.5'], true], [['~=2.2', '>=2.2,==2.*'], true], [['>=2.2,==2.*', '~=2.2'], true], [['>=1,<2', '>=1,!=1.7,<3'], false], [['<1', '<1.0.0'], true],
  ],
  sortKey: [[['x'], null]],
  compile: [[['x'], null]],
  compileList: [[['x'], null]],
  versionError: [[['1.0'], null], [[1], { message: 'not a string', start: 0, end: 0 }]],
  listErrors: [[['>=1,<2'], []], [[''], []]],
};

for (const [name, cases] of Object.entries(CASES)) {
  test(name, () => {
    for (const [words, wanted] of cases) assert.deepEqual(pep440[name](...words), wanted, `${name}(${inspect(words)})`);
  });
}

test('what is wrong stands where a fault says', () => {
  const places = { '1.0prev': [6, 7], ' 1.0 x ': [5, 6], '1!': [1, 2], '1.0+a..b': [5, 6], '1.0+': [3, 4], '18446744073709551616.1': [0, 20], latest: [0, 6], '1.0.*': [3, 5], '1.0\ud800': [3, 4], '': [0, 0] };
  for (const [version, place] of Object.entries(places)) {
    const { message, start, end } = pep440.versionError(version);
    assert.ok(message);
    assert.deepEqual([start, end], place, version);
  }
  const pieces = (list) => pep440.listErrors(list).map(({ start, end }) => [start, list.slice(start, end)]);
  assert.deepEqual(pieces('>=2.0,, =>3, ~=1'), [[6, ''], [8, '=>'], [13, '~=1']]);
  assert.deepEqual(pieces('>=1.0.*, >=,==1\ud800, <x'), [[5, '.*'], [11, ''], [15, '\ud800'], [19, 'x']]);
});

test('calls that cannot return null throw', () => {
  for (const name of ['compare', 'rcompare', 'lt', 'le', 'eq', 'ne', 'ge', 'gt']) {
    assert.throws(() => pep440[name]('1', 'x'), { name: 'Pep440Error', code: 'INVALID_VERSION', start: 0, end: 1 });
    assert.throws(() => pep440[name]('1.0y', 'x'), { code: 'INVALID_VERSION', start: name === 'rcompare' ? 0 : 3 });
  }
  for (const name of ['major', 'minor', 'patch']) assert.throws(() => pep440[name]('x'), { code: 'INVALID_VERSION' });
  for (const name of ['sort', 'sortKeys']) assert.throws(() => pep440[name](['1', '2.x']), { code: 'INVALID_VERSION', start: 1, end: 3 });
  for (const name of ['specifiers', 'witness', 'isEmpty', 'boundaries', 'intersect', 'isSubset']) assert.throws(() => pep440[name]('>=1, x', ''), { code: 'INVALID_LIST', start: 5, end: 6 });
});

test('sort keys have the order of versions', () => {
  // PEP 440, "Summary of permitted suffixes and relative ordering"
  const ordered = `1.dev0 1.0.dev456 1.0a1 1.0a2.dev456 1.0a12.dev456 1.0a12 1.0b1.dev456 1.0b2 1.0b2.post345.dev456 1.0b2.post345 1.0rc1.dev456 1.0rc1 1.0
    1.0+abc.5 1.0+abc.7 1.0+5 1.0.post456.dev34 1.0.post456 1.0.15 1.1.dev1 1.9 1.10 1!0.1`.split(/\s+/);
  const keys = pep440.sortKeys(ordered);
  for (let i = 1; i < keys.length; i++) assert.ok(pep440.compareKeys(keys[i - 1], keys[i]) < 0, ordered[i]);
  assert.deepEqual(keys.map((key) => Buffer.from(key)), ordered.map((it) => Buffer.from(pep440.sortKey(it))));
  assert.equal(pep440.compareKeys(pep440.sortKey('1'), pep440.sortKey('1.0.0')), 0);
  assert.deepEqual(pep440.sort(ordered.toReversed()), ordered);
});

test('compiled bytes take the place of strings', () => {
  const version = pep440.compile(' v1.19'), list = pep440.compileList('<2.0,>=1.16');
  assert.equal(pep440.valid(version), '1.19');
  assert.equal(pep440.normalizeList(list), '>=1.16, <2.0');
  assert.ok(pep440.satisfies(version, list) && pep440.satisfies('1.19', list) && pep440.satisfies(version, '>=1.16'));
  assert.deepEqual(pep440.filter([version, '3'], list), [version]);
  assert.equal(pep440.compare(version, '1.19.0'), 0);
});

test('a version is in the set of its boundaries exactly if the list contains it', () => {
  const versions = ['0.9', '1.0.dev0', '1.0a1', '1.0', '1.0.post1', '1.5', '1.5.1', '1.6', '2.0.dev0', '2.0rc1', '2.0', '3'];
  for (const list of ['>=1.0,<2.0,!=1.5.*', '~=1.0', '>1.0', '<=2.0', '==1.5', '!=1.5', '', '>1,<1']) {
    const intervals = pep440.boundaries(list), marks = pep440.marks(versions, list);
    versions.forEach((version, i) => {
      const key = pep440.sortKey(version);
      const held = intervals.some(([low, high]) => (!low || pep440.compareKeys(key, low) >= 0) && (!high || pep440.compareKeys(key, high) < 0));
      assert.equal(held, marks[i] === 1 || marks[i] === 3, `${version} in ${list}`);
    });
  }
});

test('matching is today\'s', () => {
  // PEP 440, "Exclusive ordered comparison": only the given version's own pre-releases, post-releases and local versions are left out
  const matches = (version, list) => pep440.satisfies(version, list, { prereleases: true });
  assert.ok(matches('1.0.post1', '>1.0rc1') && matches('1.0rc1', '<1.0.post1') && matches('1.0+local', '<=1.0') && matches('1.0.post1', '>1.0.post0'));
  assert.ok(!matches('1.0.post1', '>1.0') && !matches('2.0rc1', '<2.0') && !matches('1.0+local', '>1.0') && !matches('1.0.0', '===1.0'));
  for (const call of [() => pep440.boundaries('===1'), () => pep440.isSubset('===1', ''), () => pep440.isSubset('', '>1,===1')]) assert.throws(call, { code: 'NO_SET' });
});

test('a witness is of its list', () => {
  for (const list of ['>=1.16', '', '==1.0.*', '>1.0,<1.1', '!=1.0', '~=2.2']) assert.ok(pep440.satisfies(pep440.witness(list), list, { prereleases: true }), list);
  assert.equal(pep440.witness('>2,<1'), null);
});

test('the types name what there is', async () => {
  const types = await readFile(new URL('index.d.ts', folder), 'utf8');
  const named = [...types.matchAll(/^export (?:function|class) (\w+)/gm)].map((it) => it[1]);
  assert.deepEqual(named.sort(), Object.keys(pep440).sort());
});

test('README shows what its lines print', async () => {
  const page = await readFile(new URL('README.md', folder), 'utf8');
  const lines = [...page.matchAll(/^```js\n([^]*?)^```/gm)].flatMap((it) => it[1].split('\n')).filter((it) => it && !it.startsWith('import '));
  for (const line of lines) {
    const [, code, wanted] = /^(.*); \/\/ (.*)$/.exec(line);
    assert.equal(inspect(new Function('pep440', `return (${code});`)(pep440), { breakLength: Infinity }), wanted, code);
  }
  assert.ok(lines.length >= 10);
});
