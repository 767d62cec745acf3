// A user's module with each kind of type, for `tsc --strict`.
import { compare, compile, compileList, explain, filter, inc, maxSatisfying, parse, satisfies, sort, versionError, Pep440Error, type Explained, type Fault, type Parts } from 'pep440-rattle';
import { start, valid } from 'pep440-rattle/bytes';

const parts: Parts | null = parse('1.0a1');
const letter: 'a' | 'b' | 'rc' | undefined = parts?.pre?.[0];
const explained: Explained | null = explain('1.0');
const order: -1 | 0 | 1 = compare('1', '2');
const strings: string[] = filter(['1'] as const, '>=1', { prereleases: true });
const newest: string | null = maxSatisfying(sort(['1', '2']), '>=1');
const fault: Fault | null = versionError('x');
const version = compile('1'), list = compileList('>=1');
const holds: boolean = version !== null && list !== null && satisfies(version, list);
const next: string | null = inc('1.0', 'prerelease', 'rc');
start(new Uint8Array());
try {
  compare('x', '1');
} catch (error) {
  if (error instanceof Pep440Error && error.code === 'INVALID_VERSION') console.log(error.start, letter, explained, order, strings, newest, fault, holds, next, valid('1'));
}
// @ts-expect-error: no such part
inc('1.0', 'other');
