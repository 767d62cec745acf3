// The package, with the module from the file beside it.
import { start } from './pep440.js';

export * from './pep440.js';

const FILE = new URL('./pep440.wasm', import.meta.url);

async function read() {
  if (FILE.protocol === 'file:') {
    // not for bundlers: only where there are files
    const files = 'node:fs/promises';
    return (await import(/* webpackIgnore: true */ /* @vite-ignore */ files)).readFile(FILE);
  }
  const response = await fetch(FILE);
  if (!response.ok) throw new Error(`${FILE}: ${response.status}`);
  return response.arrayBuffer();
}

start(await WebAssembly.compile(await read()));
