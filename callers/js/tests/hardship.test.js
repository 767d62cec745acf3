// What goes wrong: no memory, a stack that overflows, strings that are not well-formed; and what a million calls leave behind.
import assert from 'node:assert/strict';
import { test } from 'node:test';
import { module, pep440 } from './package.js';

const VERSIONS = ['1.0', '2.0rc1', '1!3.0.post4.dev5+long.local.version', 'x', `1.${'0.1.'.repeat(40)}7`];
const GOOD = VERSIONS.filter((it) => it !== 'x');
const LIST = '>=1.0,!=1.5.*,<2!4.0,~=1.0,!=1.2';

const CALLS = {
  valid: VERSIONS.map((it) => [it]),
  compare: [[GOOD[2], GOOD[3]]],
  satisfies: VERSIONS.map((it) => [it, LIST]),
  filter: [[VERSIONS, LIST]],
  marks: [[VERSIONS, LIST]],
  sort: [[GOOD]],
  sortKeys: [[GOOD]],
  sortKey: VERSIONS.map((it) => [it]),
  compile: VERSIONS.map((it) => [it]),
  compileList: [[LIST], ['x']],
  normalizeList: [[LIST], ['x']],
  specifiers: [[LIST]],
  witness: [[LIST], ['>1,<1']],
  boundaries: [[LIST]],
  intersect: [[LIST, '>=1.7']],
  isSubset: [[LIST, '>=1'], [LIST, '>=2']],
  versionError: VERSIONS.map((it) => [it]),
  listErrors: [[LIST], ['>=x, ~=1']],
};

// The instance that the package makes, so that a test can have its allocations fail.
let instance;
const Instance = WebAssembly.Instance;
WebAssembly.Instance = function (...words) { return instance = new Instance(...words); };
pep440.start(module);

function failing(count, call) {
  instance.exports.fail_allocation(count);
  try {
    return { result: call() };
  } catch (error) {
    return { error };
  } finally {
    instance.exports.fail_allocation(0);
  }
}

test('each allocation that fails is an error, and the next call works', () => {
  let failures = 0;
  for (const [name, cases] of Object.entries(CALLS)) for (const words of cases) {
    const call = () => pep440[name](...words), wanted = call();
    for (let count = 1; ; count++) {
      const { error, result } = failing(count, call);
      if (!error) {
        assert.deepEqual(result, wanted);
        break;
      }
      assert.equal(error.code, 'OUT_OF_MEMORY', `${name}: ${error}`);
      assert.deepEqual(call(), wanted, name);
      failures += 1;
    }
  }
  assert.ok(failures > 200, String(failures));
  console.log(`${failures} allocations failed`);
});

test('what memory cannot hold is an error', () => {
  const long = '1.'.repeat(2 ** 28 - 100);
  assert.throws(() => pep440.valid(long), { code: 'OUT_OF_MEMORY' });
  assert.throws(() => pep440.satisfies('1', long), { code: 'OUT_OF_MEMORY' });
  assert.equal(pep440.valid('1.0'), '1.0');
});

test('memory that a large call took is given back', () => {
  assert.equal(pep440.marks(Array(400000).fill('1.0.0.0.0.0.0.0.0'), '>=1')[399999], 1);
  assert.ok(instance.exports.memory.buffer.byteLength > 2 ** 24);
  assert.equal(pep440.valid('1.0'), '1.0');
  assert.ok(instance.exports.memory.buffer.byteLength < 2 ** 20);
});

test('a million calls leave nothing behind', () => {
  const before = instance;
  let most = 0;
  for (const [name, cases] of Object.entries(CALLS)) for (const words of cases) {
    pep440[name](...words);
    const bytes = instance.exports.memory.buffer.byteLength;
    for (let i = 0; i < 1000; i++) pep440[name](...words);
    assert.equal(instance.exports.memory.buffer.byteLength, bytes, name);
    most = Math.max(most, bytes);
  }
  for (let i = 0; i < 1000000; i++) pep440.satisfies(VERSIONS[i % 5], LIST);
  assert.equal(instance, before);
  assert.ok(instance.exports.memory.buffer.byteLength === most && most < 2 ** 21, String(most));
});

test('after an overflow of the engine\'s stack the next call works', () => {
  const before = instance;
  let failures = 0;
  function down() {
    try {
      down();
    } catch (error) {
      assert.ok(error instanceof RangeError);
    }
    try {
      pep440.satisfies('1.5', LIST);
    } catch (error) {
      if (!(error instanceof RangeError)) throw error;
      failures += 1;
    }
  }
  down();
  assert.ok(failures > 0);
  assert.equal(pep440.satisfies('1.5', LIST), false);
  assert.equal(pep440.satisfies('1.6', LIST), true);
  console.log(`${failures} calls ended by the engine, ${instance === before ? 'none in the module' : 'a new instance'}`);
});

test('a trap of the module is an exception, and the next call works', () => {
  assert.throws(() => instance.exports.normalize(0xfffffff0, 16, 0, 0, 0), WebAssembly.RuntimeError);
  assert.equal(pep440.valid('1.0'), '1.0');
});

test('calls take at most a fourth of the module\'s stack, whatever the length of what they read', () => {
  // the stack lies at the start of the memory, so that what goes below it traps
  const long = '1.'.repeat(100000), list = Array(5000).fill('!=1.2.*').join(), size = 65536;
  const cases = { ...CALLS, valid: [[`${long}1`], [`${long}x`]], satisfies: [[`${long}1`, list]], boundaries: [[list]], witness: [[`${list.slice(0, 799)},<1`]], normalizeList: [[list]] };
  let most = 0;
  for (const [name, all] of Object.entries(cases)) for (const words of all) {
    pep440.valid('1');
    const { buffer } = instance.exports.memory, stack = new Uint8Array(buffer, 0, size).fill(0xaa);
    pep440[name](...words);
    const used = (stack.length ? stack : new Uint8Array(instance.exports.memory.buffer, 0, size)).findIndex((it) => it !== 0xaa);
    most = Math.max(most, used < 0 ? 0 : size - used);
  }
  assert.ok(most > 500 && most <= size / 4, String(most));
  console.log(`calls took at most ${most} bytes of stack`);
});

test('strings that are not well-formed are invalid', () => {
  const halves = ['\ud800', '1.0\udc00', '\udc00\ud8001.0', `${'1.'.repeat(100)}\udfff`];
  for (const half of halves) {
    assert.equal(pep440.valid(half), null);
    assert.equal(pep440.satisfies(half, '>=1'), false);
    assert.equal(pep440.satisfies('1', `>=1${half}`), false);
    assert.deepEqual(pep440.filter(['1', half], ''), ['1']);
    assert.throws(() => pep440.sort(['1', half]), { code: 'INVALID_VERSION' });
    assert.throws(() => pep440.compare('1', half), { code: 'INVALID_VERSION' });
    assert.equal(half.charCodeAt(pep440.versionError(half).start) & 0xf800, 0xd800);
  }
  assert.match(pep440.versionError('1.0\ud83d\ude00').message, /\u{1f600}/u);
});

test('the module imports nothing', () => assert.deepEqual(WebAssembly.Module.imports(module), []));
