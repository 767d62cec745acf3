// Parts of the page that need no browser, beside plain ways to the same end.
import assert from 'node:assert/strict';
import { test } from 'node:test';
import { pathToFileURL } from 'node:url';

const folder = process.env.PEP440_PAGE ? pathToFileURL(`${process.env.PEP440_PAGE}/`) : new URL('../../../out/js/play/', import.meta.url);
const { readVersions } = await import(new URL('versions.js', folder));
const { conflictOf, readList } = await import(new URL('sets.js', folder));
const pep440 = await import(new URL('pep440-rattle/index.js', folder));

let state = 440;
const below = (n) => (state = (Math.imul(state, 1664525) + 1013904223) >>> 0, Math.floor((state / 2 ** 32) * n));
const one = (...of) => of[below(of.length)];

test('lines read after a change are those read anew', () => {
  const seen = ({ order, bad, pres }) => [order.map((it) => it.key), order.map((it) => it.line).sort(), bad, pres];
  let text = '', versions = readVersions('');
  for (let i = 0; i < 5000; i++) {
    const at = below(text.length + 1), end = at + below(below(4) ? 3 : 40);
    text = (text.slice(0, at) + one('', '1', '\n', '1.0\n', 'x', '\n\n', '2.0rc1', '.', 'a1\n3') + text.slice(end)).slice(0, 300);
    versions = readVersions(text, versions);
    assert.deepEqual(seen(versions), seen(readVersions(text)), JSON.stringify(text));
  }
});

function* choices(of, size, from = 0) {
  if (size === 0) yield [];
  for (let i = from; size && i < of.length; i++) for (const rest of choices(of, size - 1, i + 1)) yield [of[i], ...rest];
}

test('a conflict is as small as can be, and one', () => {
  let found = 0;
  for (let i = 0; i < 3000; i++) {
    const list = Array.from({ length: 2 + below(6) }, () => one('>=', '<=', '<', '>', '!=', '!=', '==', '~=').concat(`${below(3)}.${below(3)}`, '')).map((it) => (it[0] === '!' && below(2) ? `${it.replace(/\.\d+$/, '')}.*` : it)).join(',');
    if (!pep440.isEmpty(list)) continue;
    const { specifiers } = readList(list), conflict = conflictOf(specifiers), texts = [...new Set(specifiers.map((it) => it.text))];
    assert.ok(pep440.isEmpty(conflict.join(',')), list);
    for (const smaller of choices(texts, conflict.length - 1)) assert.ok(smaller.length === 0 || !pep440.isEmpty(smaller.join(',')), `${list}: ${smaller}`);
    found += 1;
  }
  assert.ok(found > 500, String(found));
});
