// Lists of specifiers: what is wrong with them, the set of versions that each allows, and what conflicts.
import * as pep440 from './pep440-rattle/index.js';
import { countBelow, keyText } from './versions.js';

const NO_SET = 'NO_SET', NUMBER_AT_MAX = 'NUMBER_AT_MAX', MOST_STEPS = 20000;

const raised = (release) => release.replace(/\d+$/, (number) => String(BigInt(number) + 1n));

/** A version of the list for readers: rather a release that a specifier names, or the next one, than what is just above a boundary. Null if there is none. */
export function exampleOf(list, specifiers) {
  const named = specifiers.slice(0, 40).map(({ version }) => /^(?:\d+!)?[\d.]*\d/.exec(version)[0]);
  return [...named, ...named.map(raised), '1.0'].find((it) => pep440.satisfies(it, list)) ?? pep440.witness(list);
}

// The labels of the low and the high end of a specifier's interval, and whether the version is in it.
function labelsOf({ operator, version }) {
  const isStar = version.endsWith('.*'), base = isStar ? version.slice(0, -2) : version;
  const [release] = /^(?:\d+!)?[\d.]*\d/.exec(base), series = operator === '~=' ? release.replace(/\.\d+$/, '') : release;
  const first = { label: isStar ? `${base}.dev0` : base, closed: true }, behind = { label: `${raised(series)}.dev0`, closed: true };
  const open = (end) => ({ ...end, closed: false });
  switch (operator + (isStar ? '*' : '')) {
    case '~=': case '==*': return { low: first, high: open(behind) };
    case '!=*': return { low: behind, high: open(first) };
    case '!=': case '<': case '>': return { low: open(first), high: open(first) };
    default: return { low: first, high: first };
  }
}

function intervalsOf(set) {
  return pep440.boundaries(set).map(([low, high]) => ({ low: low && keyText(low), high: high && keyText(high) }));
}

// For each key at which a specifier's interval begins or ends the label.
function collectLabels(specifiers) {
  const lows = new Map(), highs = new Map();
  for (const specifier of specifiers) {
    const { low, high } = labelsOf(specifier);
    for (const interval of specifier.intervals) {
      if (interval.low) lows.set(interval.low, low);
      if (interval.high) highs.set(interval.high, high);
    }
  }
  return { lows, highs };
}

const memo = new Map(); // specifiers that were read before

function readSpecifier(specifier) {
  const text = specifier.operator + specifier.version;
  if (!memo.has(text)) {
    if (memo.size > 5000) memo.clear();
    memo.set(text, { ...specifier, text, intervals: intervalsOf(text) });
  }
  return memo.get(text);
}

/** A list and its set. `why` says why it has no set, and is empty if it has one. */
export function readList(list) {
  const errors = pep440.listErrors(list);
  if (errors.length) return { list, errors };
  const specifiers = pep440.specifiers(list), normal = pep440.normalizeList(list);
  try {
    const read = specifiers.map(readSpecifier), { lows, highs } = collectLabels(read);
    const intervals = intervalsOf(list).map(({ low, high }) => ({ low: low && { key: low, ...lows.get(low) }, high: high && { key: high, ...highs.get(high) } }));
    return { list, errors, normal, specifiers: read, intervals, why: '' };
  } catch (error) {
    if (error.code !== NO_SET && error.code !== NUMBER_AT_MAX) throw error;
    const why = error.code === NO_SET ? 'a list with === has no set of versions' : 'a boundary would need a number above 18446744073709551615';
    return { list, errors, normal, specifiers: specifiers.map((it) => ({ ...it, text: it.operator + it.version })), intervals: [], why };
  }
}

/** Which of the sorted versions the list contains, as pairs of positions: from, and before which. */
export function spansOf({ list, intervals, why }, versions) {
  if (!why) return intervals.map(({ low, high }) => [low ? countBelow(versions, low.key) : 0, high ? countBelow(versions, high.key) : versions.order.length]).filter(([from, to]) => from < to);
  const marks = pep440.marks(versions.order.map((it) => it.line), list), spans = [];
  marks.forEach((mark, i) => {
    if (mark !== 1 && mark !== 3) return;
    if (spans.length && spans.at(-1)[1] === i) spans.at(-1)[1] = i + 1;
    else spans.push([i, i + 1]);
  });
  return spans;
}

// The stretches between neighbouring boundaries, and for each specifier those that it leaves out, as bits.
function cells(specifiers) {
  const keys = [...new Set(specifiers.flatMap((it) => it.intervals.flatMap(({ low, high }) => [low, high])).filter((it) => it !== null))].sort((left, right) => (left < right ? -1 : 1));
  const at = new Map(keys.map((key, i) => [key, BigInt(i + 1)])), all = (1n << BigInt(keys.length + 1)) - 1n, count = BigInt(keys.length + 1);
  const held = ({ low, high }) => ((1n << (high === null ? count : at.get(high))) - 1n) & ~((1n << (low === null ? 0n : at.get(low))) - 1n);
  return { all, left: specifiers.map((it) => all & ~it.intervals.reduce((bits, interval) => bits | held(interval), 0n)) };
}

// A way to leave out all with so many specifiers: the lowest cell that is still held must be left out by one of them.
function cover({ all, left }, size, covered, budget) {
  if (covered === all) return [];
  if (size === 0 || budget.steps-- <= 0) return null;
  const lowest = ~covered & all & -(~covered & all);
  for (let i = 0; i < left.length; i++) {
    if (!(left[i] & lowest)) continue;
    const rest = cover({ all, left }, size - 1, covered | left[i], budget);
    if (rest) return [i, ...rest];
  }
  return null;
}

/** A smallest choice of the specifiers that no version satisfies; if they are too many for the search, one that needs each of its own. */
export function conflictOf(specifiers) {
  const distinct = [...new Map(specifiers.map((it) => [it.text, it])).values()], budget = { steps: MOST_STEPS };
  if (distinct.every((it) => it.intervals)) {
    const bits = cells(distinct);
    for (let size = 1; size <= distinct.length && budget.steps > 0; size++) {
      const found = cover(bits, size, 0n, budget);
      if (found) return found.sort((left, right) => left - right).map((i) => distinct[i].text);
    }
  }
  return distinct.map((it) => it.text).reduce((kept, text) => {
    const without = kept.filter((it) => it !== text);
    return without.length && pep440.isEmpty(without.join(',')) ? without : kept;
  }, distinct.map((it) => it.text));
}
