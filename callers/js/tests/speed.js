// `satisfies` and `marks` beside the C calls that they make, in one run: PEP440_SPEED is the program of speed.c. Each line has the nanoseconds of processor
// of both, the least of 25 turns, and their ratio; the last line says what the module takes to its first answer.
import { execFileSync } from 'node:child_process';
import { readFileSync } from 'node:fs';
import { gzipSync } from 'node:zlib';
import { folder, pep440 } from './package.js';

const TURNS = 25, CALLS = 50000, BATCH = 10000, LIST = '>=1.16, <2.0, !=1.19.*';
const MOST = { strings: 4, compiled_list: 6, compiled_both: 6, batch: 2.5 };
const versions = Array.from({ length: BATCH }, (_, i) => `${i % 3}.${i % 31}.${i % 17}${i % 5 ? '' : 'rc1'}`);
const list = pep440.compileList(LIST), version = pep440.compile('1.18.3');

const calls = {
  strings: [(i) => pep440.satisfies(versions[i], LIST), CALLS],
  compiled_list: [(i) => pep440.satisfies(versions[i], list), CALLS],
  compiled_both: [() => pep440.satisfies(version, list), CALLS],
  batch: [() => pep440.marks(versions, LIST), 20],
};

function least(call, count) {
  let found = Infinity;
  for (let turn = 0; turn < TURNS; turn++) {
    const from = process.cpuUsage();
    for (let i = 0; i < count; i++) call(i % BATCH);
    const { user, system } = process.cpuUsage(from);
    found = Math.min(found, (1000 * (user + system)) / count);
  }
  return found;
}

const ofC = Object.fromEntries(execFileSync(process.env.PEP440_SPEED, { encoding: 'utf8' }).trim().split('\n').map((line) => line.split(' ')));
let slow = 0;
for (const [name, [call, count]] of Object.entries(calls)) {
  const taken = least(call, count), ratio = taken / ofC[name];
  slow += ratio > MOST[name];
  console.log(`${name}: ${taken.toFixed(0)} ns, in C ${ofC[name]} ns: ${ratio.toFixed(2)} times, at most ${MOST[name]}`);
}
const file = new URL('pep440.wasm', folder), from = process.hrtime.bigint(), bytes = readFileSync(file);
pep440.start(bytes);
pep440.valid('1.0');
console.log(`${bytes.length} bytes of module, ${gzipSync(bytes, { level: 9 }).length} by gzip; first answer after ${(Number(process.hrtime.bigint() - from) / 1e6).toFixed(1)} ms`);
process.exitCode = slow ? 1 : 0;
