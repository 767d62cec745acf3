// The lines of versions: each read once, sorted, with what the picture and the table ask of them.
import * as pep440 from './pep440-rattle/index.js';

const NOT_A_VERSION = 2, PRERELEASE = 3, MOST_KNOWN = 100000, MOST_CHANGED = 2000;
const known = new Map(); // by the line as it is written

/** Sort keys as strings, which JavaScript compares as bytes are compared. */
export const keyText = (key) => String.fromCharCode(...key);

/** The numbers of a version's epoch and release, as strings. */
export function releaseOf(version) {
  const [, epoch, release] = /^(?:(\d+)!)?(\d+(?:\.\d+)*)/.exec(version);
  return [epoch ?? '0', ...release.split('.')];
}

// How wide a step between two neighbours is: by the first number that differs, or where only what follows the release does.
export function stepBetween(left, right) {
  for (let i = 0; i < Math.max(left.length, right.length); i++) if ((left[i] ?? '0') !== (right[i] ?? '0')) return [3, 2, 1.4][i] ?? 1;
  return 0.7;
}

// Reads the lines that were not read before: in batches, so that 10,000 pasted lines are a few calls.
function read(lines) {
  if (known.size > MOST_KNOWN) known.clear();
  const marks = pep440.marks(lines, ''), good = lines.filter((_, i) => marks[i] !== NOT_A_VERSION), keys = pep440.sortKeys(good);
  let next = 0;
  lines.forEach((line, i) => {
    if (marks[i] === NOT_A_VERSION) return known.set(line, { line, fault: pep440.versionError(line) });
    const normal = pep440.valid(line);
    known.set(line, { line, normal, key: keyText(keys[next++]), isPre: marks[i] === PRERELEASE, release: releaseOf(normal), before: null, width: 0 });
  });
}

// How wide the step to a version is from the one before it, which mostly stays the same.
function widthOf(it, before) {
  if (it.before !== before) {
    it.before = before;
    it.width = it.key === before.key ? 0 : stepBetween(before.release, it.release);
  }
  return it.width;
}

// For each position of the order how many before it are pre-releases, and how wide the step to it is.
function summed(order) {
  const pres = new Int32Array(order.length + 1), widths = new Float64Array(order.length);
  for (let i = 0; i < order.length; i++) {
    pres[i + 1] = pres[i] + (order[i].isPre ? 1 : 0);
    if (i) widths[i] = widthOf(order[i], order[i - 1]);
  }
  return { pres, widths };
}

function readNew(lines) {
  const unread = new Set(lines.filter((it) => it.trim() && !known.has(it)));
  if (unread.size) read([...unread]);
}

const faultsOf = (lines, first) => lines.flatMap((line, i) => (known.get(line)?.fault ? [{ number: first + i, ...known.get(line) }] : []));
const versionsOf = (lines) => lines.map((it) => known.get(it)).filter((it) => it && !it.fault);

function readAll(text) {
  const lines = text.split('\n');
  readNew(lines);
  const order = versionsOf(lines).sort((left, right) => (left.key < right.key ? -1 : left.key > right.key ? 1 : 0));
  return { text, order, bad: faultsOf(lines, 0), ...summed(order) };
}

// The greatest number up to `most` for which it holds, as it does for all below.
function greatest(most, holds) {
  let low = 0;
  for (let high = most; low < high; ) {
    const middle = (low + high + 1) >> 1;
    if (holds(middle)) low = middle;
    else high = middle - 1;
  }
  return low;
}

// Where two texts differ, in whole lines: from, and how many characters from their ends.
function difference(left, right) {
  const most = Math.min(left.length, right.length), same = greatest(most, (it) => left.startsWith(right.slice(0, it)));
  const behind = greatest(most - same, (it) => left.endsWith(right.slice(right.length - it)));
  const next = right.indexOf('\n', right.length - behind);
  return { from: same ? left.lastIndexOf('\n', same - 1) + 1 : 0, behind: next < 0 ? 0 : right.length - next };
}

function numberOfLines(text, end) {
  let count = 0;
  for (let at = text.indexOf('\n'); at >= 0 && at < end; at = text.indexOf('\n', at + 1)) count++;
  return count;
}

function withoutVersion(order, { key, line }) {
  let at = countBelow({ order }, key);
  while (order[at].line !== line) at++;
  order.splice(at, 1);
}

/** The lines of a text: those that are versions in ascending order, and the others with their faults. After a small change only the changed lines are read. */
export function readVersions(text, before) {
  const { from, behind } = before ? difference(before.text, text) : {};
  if (!before || before.text.length - behind - from > MOST_CHANGED || text.length - behind - from > MOST_CHANGED) return readAll(text);
  const old = before.text.slice(from, before.text.length - behind).split('\n'), lines = text.slice(from, text.length - behind).split('\n');
  if (old.some((it) => it.trim() && !known.has(it))) return readAll(text);
  readNew(lines);
  const order = before.order.slice(), first = numberOfLines(text, from), moved = lines.length - old.length;
  versionsOf(old).forEach((it) => withoutVersion(order, it));
  versionsOf(lines).forEach((it) => order.splice(countBelow({ order }, `${it.key}\0`), 0, it));
  const later = before.bad.filter((it) => it.number >= first + old.length).map((it) => ({ ...it, number: it.number + moved }));
  return { text, order, bad: [...before.bad.filter((it) => it.number < first), ...faultsOf(lines, first), ...later], ...summed(order) };
}

/** How many of the versions have a key below this one. */
export function countBelow({ order }, key) {
  let low = 0;
  for (let high = order.length; low < high; ) {
    const middle = (low + high) >> 1;
    if (order[middle].key < key) low = middle + 1;
    else high = middle;
  }
  return low;
}
