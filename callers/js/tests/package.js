// The package that is tested: in the folder that PEP440_JS names, or where callers/js/build makes it.
import { readFile } from 'node:fs/promises';
import { pathToFileURL } from 'node:url';

export const folder = process.env.PEP440_JS ? pathToFileURL(`${process.env.PEP440_JS}/`) : new URL('../../../out/js/pep440-rattle/', import.meta.url);
export const pep440 = await import(new URL('index.js', folder));
export const module = await WebAssembly.compile(await readFile(new URL('pep440.wasm', folder)));
