/** A version or a list as a string, or as the bytes that `compile` or `compileList` made of it. */
export type Text = string | Uint8Array;
/** A number, or a BigInt above `Number.MAX_SAFE_INTEGER`. */
export type Numeric = number | bigint;

export interface Parts {
  epoch: Numeric;
  release: Numeric[];
  pre: ['a' | 'b' | 'rc', Numeric] | null;
  post: ['post', Numeric] | null;
  dev: ['dev', Numeric] | null;
  local: (string | Numeric)[] | null;
}

export interface Explained {
  epoch: Numeric;
  release: Numeric[];
  pre: ['a' | 'b' | 'rc', Numeric] | null;
  post: Numeric | null;
  dev: Numeric | null;
  local: string | null;
  /** The normal form without the local part. */
  public: string;
  /** Epoch and release. */
  base_version: string;
  /** Whether it has a pre-release or a developmental part. */
  is_prerelease: boolean;
  is_devrelease: boolean;
  is_postrelease: boolean;
}

export interface Options {
  /** Whether pre-releases and developmental releases match; if it is not given, they do if a specifier with another operator than `!=` has one. */
  prereleases?: boolean | null;
}

/** What is wrong with a string: the piece from `start` to before `end`, in units of UTF-16. A piece that is missing is empty. */
export interface Fault {
  message: string;
  start: number;
  end: number;
}

export type Part = 'major' | 'minor' | 'patch' | 'premajor' | 'preminor' | 'prepatch' | 'prerelease';
export type PrereleaseName = 'a' | 'b' | 'rc' | 'alpha' | 'beta' | 'c' | 'pre' | 'preview';

/** Thrown by calls that cannot return null or false. After any of them the next call works. */
export class Pep440Error extends Error {
  code: 'INVALID_VERSION' | 'INVALID_LIST' | 'OUT_OF_MEMORY' | 'NUMBER_AT_MAX' | 'NO_SET';
  start?: number;
  end?: number;
}

/** Takes the module, as bytes or compiled, in place of the file beside the package. */
export function start(module: BufferSource | WebAssembly.Module): void;

/** The normal form, or null if it is no version. */
export function valid(version: Text): string | null;
/** As `valid`. */
export function clean(version: Text): string | null;
export function parse(version: Text): Parts | null;
export function explain(version: Text): Explained | null;
/** The first, second and third number of the release, 0 if it has none there. Throws if it is no version, as the next nine. */
export function major(version: Text): Numeric;
export function minor(version: Text): Numeric;
export function patch(version: Text): Numeric;
/** -1, 0 or 1. */
export function compare(left: Text, right: Text): -1 | 0 | 1;
export function rcompare(left: Text, right: Text): -1 | 0 | 1;
export function lt(left: Text, right: Text): boolean;
export function le(left: Text, right: Text): boolean;
export function eq(left: Text, right: Text): boolean;
export function ne(left: Text, right: Text): boolean;
export function ge(left: Text, right: Text): boolean;
export function gt(left: Text, right: Text): boolean;
/** The next version of the part, or null if it is no version, no part, or would have too great a number. */
export function inc(version: Text, part: Part, identifier?: PrereleaseName): string | null;
/** In ascending order, equal ones in the order given. Throws if one is no version. */
export function sort<T extends Text>(versions: readonly T[]): T[];
/** Bytes that `compareKeys`, and `memcmp`, order as the versions; null if it is no version. */
export function sortKey(version: Text): Uint8Array | null;
/** The sort key of each. Throws if one is no version. */
export function sortKeys(versions: readonly Text[]): Uint8Array[];
/** Negative, 0 or positive. */
export function compareKeys(left: Uint8Array, right: Uint8Array): number;
/** Bytes that every call takes in place of the string; null if it is no version. Matching a compiled version with a compiled list is fastest. */
export function compile(version: Text): Uint8Array | null;
/** The same of a list. */
export function compileList(list: Text): Uint8Array | null;

/** Whether the list allows the version; false too if either is invalid. */
export function satisfies(version: Text, list: Text, options?: Options): boolean;
/** The versions that the list allows; if it allows none and `prereleases` is not given, the pre-releases that match. Others than versions are left out. */
export function filter<T extends Text>(versions: readonly T[], list: Text, options?: Options): T[];
/** The newest of what `filter` returns, of equal ones the first, or null. */
export function maxSatisfying<T extends Text>(versions: readonly T[], list: Text, options?: Options): T | null;
/** The oldest of it, of equal ones the first, or null. */
export function minSatisfying<T extends Text>(versions: readonly T[], list: Text, options?: Options): T | null;
/** For each string 0 if it does not match, 1 if it does, 2 if it is no version, 3 if it matches and is a pre-release; null if the list is invalid. */
export function marks(versions: readonly Text[], list: Text): Uint8Array | null;

/** Whether it is a list of specifiers. */
export function validRange(list: Text): boolean;
/** The normal form, or null if it is no list. */
export function normalizeList(list: Text): string | null;
/** The specifiers in normal form. Throws if it is no list, as the next calls. */
export function specifiers(list: Text): { operator: string; version: string }[];
/** The list that contains what both contain. */
export function intersect(left: Text, right: Text): string;
/** Whether the right list contains all that the left one contains. Throws with the code `NO_SET` if either has `===`. */
export function isSubset(left: Text, right: Text): boolean;
/** A version that the list contains, or null if it contains none. */
export function witness(list: Text): string | null;
/** Whether it contains no version. */
export function isEmpty(list: Text): boolean;
/** The intervals of the list's set in ascending order: a version is in one if its sort key is at least the first and below the second. Null is no bound. Throws as `isSubset`. */
export function boundaries(list: Text): [Uint8Array | null, Uint8Array | null][];

/** What is wrong with a version, or null. */
export function versionError(version: Text): Fault | null;
/** What is wrong with each specifier of a list; empty if it is one. */
export function listErrors(list: Text): Fault[];
