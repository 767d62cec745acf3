// The names of the package. `start` takes the module before the first call; index.js does that by itself.
import * as lib from './module.js';

export { start, Pep440Error } from './module.js';

const NORMAL = /^(?:(\d+)!)?(\d+(?:\.\d+)*)(?:(a|b|rc)(\d+))?(?:\.post(\d+))?(?:\.dev(\d+))?(?:\+(.*))?$/;
const GREATEST = 18446744073709551615n;
// What `inc` takes for the kind of a pre-release.
const PRERELEASES = ['a', 'b', 'rc', 'alpha', 'beta', 'c', 'pre', 'preview'];
const PARTS = ['major', 'minor', 'patch'];

const isText = (value) => typeof value === 'string';

// A number, or a BigInt where a number has no room for it.
function numberOf(digits) {
  const number = Number(digits);
  return Number.isSafeInteger(number) ? number : BigInt(digits);
}

// ---- versions

export const valid = (version) => lib.textOf('normalize', version);
export const clean = valid;

function localSegment(segment) {
  return /^\d+$/.test(segment) && BigInt(segment) <= GREATEST ? numberOf(segment) : segment;
}

export function parse(version) {
  const normal = valid(version);
  if (normal === null) return null;
  const [, epoch, release, letter, pre, post, dev, local] = NORMAL.exec(normal);
  return {
    epoch: numberOf(epoch ?? 0),
    release: release.split('.').map(numberOf),
    pre: letter ? [letter, numberOf(pre)] : null,
    post: post ? ['post', numberOf(post)] : null,
    dev: dev ? ['dev', numberOf(dev)] : null,
    local: local ? local.split('.').map(localSegment) : null,
  };
}

export function explain(version) {
  const parts = parse(version);
  if (!parts) return null;
  const { epoch, release, pre, post, dev, local } = parts, normal = valid(version);
  return {
    epoch,
    release,
    pre,
    post: post && post[1],
    dev: dev && dev[1],
    local: local && local.join('.'),
    public: normal.split('+')[0],
    base_version: (epoch ? `${epoch}!` : '') + release.join('.'),
    is_prerelease: Boolean(pre || dev),
    is_devrelease: Boolean(dev),
    is_postrelease: Boolean(post),
  };
}

function rejectVersion(version) {
  throw new lib.Pep440Error('INVALID_VERSION', versionError(version));
}

function releaseNumber(version, index) {
  const parts = parse(version) ?? rejectVersion(version);
  return parts.release[index] ?? 0;
}

export const major = (version) => releaseNumber(version, 0);
export const minor = (version) => releaseNumber(version, 1);
export const patch = (version) => releaseNumber(version, 2);

const next = (number) => numberOf(BigInt(number) + 1n);

// The release with its number at the index raised and those behind it 0; at least so long that it has it.
function raised(release, index) {
  return Array.from({ length: Math.max(release.length, index + 1) }, (_, i) => (i < index ? release[i] ?? 0 : i === index ? next(release[i] ?? 0) : 0));
}

// Of a pre-release its own release is next, unless it has other numbers behind the part.
function nextFinal({ release, pre }, index) {
  return pre && !release.slice(index + 1).some(Boolean) ? release : raised(release, index);
}

function nextPrerelease({ release, pre }, identifier) {
  if (!pre) return [raised([...release.slice(0, 3)].concat(release.slice(3).fill(0)), 2), identifier ?? 'a', 0];
  const [letter, number] = pre;
  const asked = identifier ? NORMAL.exec(valid(`0${identifier}0`))[3] : letter;
  return [release, asked, asked === letter ? next(number) : 0];
}

function changed(parts, part, identifier) {
  const index = PARTS.indexOf(part.replace(/^pre/, ''));
  if (part === 'prerelease') return nextPrerelease(parts, identifier);
  if (index < 0) return null;
  return part.startsWith('pre') ? [raised(parts.release, index), identifier ?? 'a', 0] : [nextFinal(parts, index), '', ''];
}

export function inc(version, part, identifier) {
  const parts = parse(version);
  if (!parts || !isText(part) || (identifier && !PRERELEASES.includes(identifier))) return null;
  const made = changed(parts, part, identifier);
  return made && valid(`${parts.epoch}!${made[0].join('.')}${made[1]}${made[2]}`);
}

// ---- order

export function compare(left, right) {
  const order = lib.order(left, right);
  return isText(order) ? rejectVersion(order === 'left' ? left : right) : order;
}

export const rcompare = (left, right) => compare(right, left);
export const lt = (left, right) => compare(left, right) < 0;
export const le = (left, right) => compare(left, right) <= 0;
export const eq = (left, right) => compare(left, right) === 0;
export const ne = (left, right) => compare(left, right) !== 0;
export const ge = (left, right) => compare(left, right) >= 0;
export const gt = (left, right) => compare(left, right) > 0;

export const sortKey = (version) => lib.bytesOf('sort_key', version);

// What a batch wrote, or an error of its first string that is no version.
const ofVersions = (found, versions) => (typeof found === 'number' ? rejectVersion(versions[found]) : found);

export const sortKeys = (versions) => ofVersions(lib.keysOf(versions), versions);
export const sort = (versions) => ofVersions(lib.indicesOf(versions), versions).map((index) => versions[index]);

export function compareKeys(left, right) {
  const length = Math.min(left.length, right.length);
  for (let i = 0; i < length; i++) if (left[i] !== right[i]) return left[i] - right[i];
  return left.length - right.length;
}

// ---- matching

function modeOf(options) {
  const prereleases = options?.prereleases;
  return prereleases === undefined || prereleases === null ? lib.AS_THE_LIST_ASKS : prereleases ? lib.ANY_PRERELEASES : lib.NO_PRERELEASES;
}

export const satisfies = (version, list, options) => lib.allows(list, version, modeOf(options)) === 1;

export const marks = (versions, list) => lib.marksOf(versions, list);

// Pre-releases count if they are asked for, by the option or the list, or if nothing else matches and the option does not say no.
export function filter(versions, list, options) {
  const found = marks(versions, list), mode = modeOf(options);
  if (!found) return [];
  const first = found.indexOf(lib.PRERELEASE_MATCH);
  const counts = mode === lib.AS_THE_LIST_ASKS
    ? first >= 0 && (!found.includes(lib.MATCH) || lib.allows(list, versions[first], mode) === 1)
    : mode === lib.ANY_PRERELEASES;
  return versions.filter((_, i) => found[i] === lib.MATCH || (counts && found[i] === lib.PRERELEASE_MATCH));
}

// The first of those whose key is below (by sign 1) or above (-1) all others.
function extreme(versions, sign) {
  const keys = sortKeys(versions);
  let best = 0;
  for (let i = 1; i < keys.length; i++) if (sign * compareKeys(keys[i], keys[best]) < 0) best = i;
  return versions[best] ?? null;
}

export const maxSatisfying = (versions, list, options) => extreme(filter(versions, list, options), -1);
export const minSatisfying = (versions, list, options) => extreme(filter(versions, list, options), 1);

// ---- lists of specifiers, and sets of versions

export const normalizeList = (list) => lib.textOf('normalize_list', list);
export const validRange = (list) => normalizeList(list) !== null;

export const compile = (version) => lib.bytesOf('compile', version);
export const compileList = (list) => lib.bytesOf('compile_list', list);

function rejectList(list) {
  throw new lib.Pep440Error('INVALID_LIST', isText(list) ? listErrors(list)[0] : undefined);
}

export function specifiers(list) {
  const words = lib.piecesOf('specifiers_of', list, true) ?? rejectList(list);
  return words.flatMap((word, i) => (i % 2 ? [{ operator: words[i - 1], version: word }] : []));
}

export const witness = (list) => (lib.textOf('version_in', list) ?? rejectList(list)) || null;
export const isEmpty = (list) => witness(list) === null;

export function intersect(left, right) {
  const lists = [left, right].map((it) => normalizeList(it) ?? rejectList(it));
  return normalizeList(lists.filter(Boolean).join());
}

// Intervals are apart, so one that lies in several lies in one of them. No version is below 0.dev0.
function isWithin([low, high], [from, to]) {
  const begins = !from || compareKeys(from, low ?? sortKey('0.dev0')) <= 0;
  return begins && (!to || (high !== null && compareKeys(high, to) <= 0));
}

export function isSubset(left, right) {
  const whole = boundaries(right);
  return boundaries(left).every((it) => whole.some((other) => isWithin(it, other)));
}

export function boundaries(list) {
  const keys = (lib.piecesOf('boundaries', list, false) ?? rejectList(list)).map((key) => (key.length ? key : null));
  return keys.flatMap((key, i) => (i % 2 ? [[keys[i - 1], key]] : []));
}

// ---- errors: what is wrong with a string, and where: the library's words, and what they quote found in the string again

const NOT_WELL_FORMED = 'not well-formed UTF-16: half of a pair stands alone';

const whole = (string) => {
  const start = string.length - string.trimStart().length;
  return [start, Math.max(start, string.trimEnd().length)];
};

// The last place of what was quoted, which mostly is all that is left of the string.
function quoted(string, part) {
  const at = part.trim() ? string.lastIndexOf(part.trim()) : -1;
  return at < 0 ? whole(string) : [at, at + part.trim().length];
}

const matched = (string, pattern) => {
  const found = pattern.exec(string);
  return found ? [found.index, found.index + found[0].length] : whole(string);
};

// The words of a message, and where what they speak of stands in the string. What is missing stands at an end: an empty piece.
const PLACES = [
  [/, found `([^]*)`, which is not part/, quoted],
  [/^Trailing `([^]*)` is not/, quoted],
  [/non-empty local segments \(`([^]*)`\)/, quoted],
  [/^no such comparison operator "([^]*)", must/, (string, part) => matched(string, new RegExp(part.replace(/[^]/g, (it) => `\\u{${it.codePointAt(0).toString(16)}}`), 'u'))],
  [/number found in "(\d+)" exceeds/, quoted],
  [/indicating the start of a local component/, (string) => matched(string, /(?<=\+.*|^[^+]*)[+._-](?![a-z0-9])/i)],
  [/after an epoch/, (string) => matched(string, /!/)],
  [/^wildcards|wildcard version/, (string) => matched(string, /\.\*/)],
  [/^Unexpected end of version specifier, expected version/, (string) => [string.trimEnd().length, string.trimEnd().length]],
  [/^expected version to start with a number/, (string) => matched(string, /(?<=^\s*([~=!<>]=?=?)?\s*)[^\s~=!<>][^]*|$/)],
];

function place(string, message) {
  for (const [pattern, find] of PLACES) {
    const found = pattern.exec(message);
    if (found) return find(string, found[1]);
  }
  return whole(string);
}

// What is wrong with the string, or null.
function faultIn(kind, string) {
  if (typeof string !== 'string') return { message: 'not a string', start: 0, end: 0 };
  const half = lib.lone(string);
  if (half >= 0) return { message: NOT_WELL_FORMED, start: half, end: half + 1 };
  const message = lib.errorOf(kind, string);
  if (message === '') return null;
  const [start, end] = place(string, message);
  return { message, start, end };
}

// What is wrong with each specifier of a list, each asked alone.
export function listErrors(list) {
  if (typeof list !== 'string') return [faultIn(lib.A_VERSION, list)];
  if (list === '') return [];
  let at = 0;
  return list.split(',').flatMap((piece) => {
    const fault = faultIn(lib.A_SPECIFIER, piece), from = at;
    at += piece.length + 1;
    return fault ? [{ message: fault.message, start: from + fault.start, end: from + fault.end }] : [];
  });
}

export const versionError = (version) => faultIn(lib.A_VERSION, version);
