// The module of WebAssembly: strings in, answers out. An answer is null where a string is no version or no list.

const OUT_OF_MEMORY = 3, NO_ROOM = 4, INVALID_RIGHT = 6, NO_LIST = 13;
const CODES = { 1: 'INVALID_VERSION', 2: 'INVALID_LIST', 3: 'OUT_OF_MEMORY', 5: 'NUMBER_AT_MAX', 12: 'NO_SET' };
const MESSAGES = {
  INVALID_VERSION: 'not a version',
  INVALID_LIST: 'not a list of specifiers',
  OUT_OF_MEMORY: 'out of memory',
  NUMBER_AT_MAX: 'a bound needs a number above 18446744073709551615',
  NO_SET: 'a list with === has no set of versions',
};
// Memory that has grown never shrinks, so above this a new instance takes the next call.
const KEPT = 16 << 20, MOST = 2 ** 30;
// The byte for what is no well-formed string: no version and no list has it.
const NO_STRING = 0xff;
// `written` and `count`, in front of what a call reads and writes.
const HEAD = 16;

export const NO_PRERELEASES = 0, ANY_PRERELEASES = 1, AS_THE_LIST_ASKS = 2;
export const NO_MATCH = 0, MATCH = 1, NOT_A_VERSION = 2, PRERELEASE_MATCH = 3;
export const A_VERSION = 0, A_SPECIFIER = 2;

export class Pep440Error extends Error {
  constructor(code, fault) {
    super(fault ? `${MESSAGES[code]}: ${fault.message}` : MESSAGES[code]);
    Object.assign(this, { name: 'Pep440Error', code, ...(fault && { start: fault.start, end: fault.end }) });
  }
}

const encoder = new TextEncoder(), decoder = new TextDecoder();
let module, calls, bytes, words, unfinished;
// The calls that are made most, which are found faster so.
let reserve, askAllows, askOrder;

/** Takes a compiled module, or its bytes. */
export function start(from) {
  module = from instanceof WebAssembly.Module ? from : new WebAssembly.Module(from);
  renew();
}

// The engine may end any of this where its stack overflows; then the next call does it again.
function renew() {
  unfinished = true;
  calls = new WebAssembly.Instance(module).exports;
  ({ begin: reserve, allows: askAllows, compare: askOrder } = calls);
  look();
  unfinished = false;
}

// A call may grow the memory, which empties views that were made before.
function look() {
  words = new Uint32Array(calls.memory.buffer);
  bytes = new Uint8Array(calls.memory.buffer);
}

// Where `length` bytes for strings and answers begin. If the engine ended the call before, the stack of the module is lost.
function begin(length) {
  if (unfinished || bytes.length > KEPT) renew();
  const at = length < MOST ? reserve(length) : 0;
  if (at === 0) throw new Pep440Error('OUT_OF_MEMORY');
  if (bytes.length === 0) look();
  unfinished = true;
  return at;
}

// The status of a call that has ended, which is in the low byte.
function end(returned) {
  if (bytes.length === 0) look();
  unfinished = false;
  const status = returned & 255;
  if (status === OUT_OF_MEMORY || (status > NO_ROOM && status !== INVALID_RIGHT && status !== NO_LIST)) throw new Pep440Error(CODES[status]);
  return status;
}

// What a string, or compiled bytes, takes at most. Arrays come before strings, so that they are aligned.
const room = (string) => (typeof string === 'string' ? 3 * string.length : (string?.length ?? 0)) + 1;

function roomOf(strings) {
  let sum = 0;
  for (let i = 0; i < strings.length; i++) sum += room(strings[i]);
  return sum;
}

// Writes a string, or compiled bytes, and returns how many bytes that is.
function put(at, string) {
  if (typeof string !== 'string') return putBytes(at, string);
  const out = bytes, length = string.length;
  for (let i = 0; i < length; i++) {
    const unit = string.charCodeAt(i);
    if (unit > 127) return putUnicode(at, string);
    out[at + i] = unit;
  }
  return length;
}

function putBytes(at, given) {
  if (!(given instanceof Uint8Array)) return bytes[at] = NO_STRING, 1;
  const out = bytes, length = given.length;
  // a loop is faster for few bytes
  if (length > 64) out.set(given, at);
  else for (let i = 0; i < length; i++) out[at + i] = given[i];
  return length;
}

function putUnicode(at, string) {
  if (lone(string) >= 0) return putBytes(at);
  return encoder.encodeInto(string, bytes.subarray(at, at + 3 * string.length)).written;
}

/** Where a half of a pair of UTF-16 stands alone, or -1. */
export const lone = (string) => string.search(/\p{Surrogate}/u);

function text(from, to) {
  if (to - from > 40) return decoder.decode(bytes.subarray(from, to));
  let found = '';
  for (let at = from; at < to; at++) {
    if (bytes[at] > 127) return decoder.decode(bytes.subarray(from, to));
    found += String.fromCharCode(bytes[at]);
  }
  return found;
}

// What a call writes, as `read` makes it of the bytes from and to. It runs again if there was no room for it.
function answer(read, call, strings, size) {
  for (;;) {
    const head = begin(HEAD + roomOf(strings) + size), given = [];
    let at = head + HEAD;
    for (const it of strings) {
      given.push(at, put(at, it));
      at += room(it);
    }
    const status = end(call(given, at, size, head));
    const written = words[head >> 2];
    if (status === 0) return read(at, at + written);
    if (status !== NO_ROOM) return null;
    size = written;
  }
}

const bytesFrom = (from, to) => bytes.slice(from, to);

const ofOne = (name) => ([at, length], out, size, written) => calls[name](at, length, out, size, written);
const CALLS = Object.fromEntries(['normalize', 'normalize_list', 'version_in', 'sort_key', 'compile', 'compile_list'].map((name) => [name, ofOne(name)]));

/** The text that a call of one string writes. */
export const textOf = (name, string) => answer(text, CALLS[name], [string], 64);

/** The bytes that a call of one string writes. */
export const bytesOf = (name, string) => answer(bytesFrom, CALLS[name], [string], 64);

/** Why a string is not of the kind, in words; empty if it is. */
export function errorOf(kind, string) {
  return answer(text, ([at, length], out, size, written) => calls.error(kind, at, length, out, size, written), [string], 256);
}

/** The strings or keys that a call of a list writes one after the other. */
export function piecesOf(name, string, isText) {
  for (let size = 512, count = 32; ; ) {
    const ends = begin(8 * count + HEAD + room(string) + size), head = ends + 8 * count, at = head + HEAD, out = at + room(string);
    const status = end(calls[name](at, put(at, string), out, size, ends, count, head, head + 8));
    const found = words[(head + 8) >> 2];
    if (status === 0) return pieces(out, ends, found, isText ? text : bytesFrom);
    if (status !== NO_ROOM) return null;
    [size, count] = [words[head >> 2], found];
  }
}

function pieces(out, ends, count, read) {
  const found = [];
  for (let i = 0, from = 0; i < count; i++) {
    const to = words[(ends >> 2) + 2 * i];
    found.push(read(out + from, out + to));
    from = to;
  }
  return found;
}

/** Whether the list allows the version: 1 or 0, or null. */
export function allows(list, version, prereleases) {
  const first = room(list), at = begin(first + room(version)), next = at + first;
  const returned = askAllows(at, put(at, list), next, put(next, version), prereleases);
  return end(returned) === 0 ? returned >> 8 : null;
}

/** -1, 0 or 1; or which of both is no version: 'left' or 'right'. */
export function order(left, right) {
  const at = begin(room(left) + room(right)), next = at + room(left);
  const returned = askOrder(at, put(at, left), next, put(next, right)), status = end(returned);
  return status === 0 ? (returned >> 8) - 1 : status === 1 ? 'left' : 'right';
}

// ---- batches: where each string ends, and then the strings, one behind the other

const roomOfEnds = (count) => 8 * Math.ceil(count / 2);

// Writes all as one string, if they are strings of ASCII alone; else returns false.
function putJoined(ends, from, strings) {
  const at = ends >> 2, found = words;
  let joined = '';
  for (let i = 0; i < strings.length; i++) {
    if (typeof strings[i] !== 'string') return false;
    joined += strings[i];
    found[at + i] = joined.length;
  }
  return encoder.encodeInto(joined, bytes.subarray(from, from + 3 * joined.length)).written === joined.length;
}

// Returns where the strings begin.
function putAll(ends, strings) {
  const from = ends + roomOfEnds(strings.length);
  if (putJoined(ends, from, strings)) return from;
  let at = from;
  for (let i = 0; i < strings.length; i++) {
    at += put(at, strings[i]);
    words[(ends >> 2) + i] = at - from;
  }
  return from;
}

/** A mark for each string, or null if the list is none. */
export function marksOf(strings, list) {
  const count = strings.length, size = roomOf(strings), ends = begin(roomOfEnds(count) + size + room(list) + count);
  const from = putAll(ends, strings), at = from + size, marks = at + room(list);
  const status = end(calls.filter(at, put(at, list), from, ends, count, marks));
  return status === 0 ? bytes.slice(marks, marks + count) : null;
}

/** The indices of the strings in the order of their versions; or the index of the first that is no version. */
export function indicesOf(strings) {
  const count = strings.length, index = begin(8 + 8 * count + roomOfEnds(count) + roomOf(strings)), indices = index + 8;
  const ends = indices + 8 * count, status = end(calls.sort(putAll(ends, strings), ends, count, indices, index));
  return status === 0 ? Array.from(strings, (_, i) => words[(indices >> 2) + 2 * i]) : words[index >> 2];
}

/** The sort key of each string; or the index of the first that is no version. */
export function keysOf(strings) {
  const count = strings.length, given = roomOfEnds(count) + roomOf(strings);
  for (let size = 16 * count; ; ) {
    const head = begin(HEAD + 8 * count + given + size), keyEnds = head + HEAD, ends = keyEnds + 8 * count, out = ends + given;
    const status = end(calls.sort_keys(putAll(ends, strings), ends, count, out, size, keyEnds, head, head + 8));
    if (status === 0) return pieces(out, keyEnds, count, bytesFrom);
    if (status !== NO_ROOM) return words[(head + 8) >> 2];
    size = words[head >> 2];
  }
}
