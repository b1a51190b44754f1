// A small program in the fragment of a link: names, roles and bytes of its files as compressed JSON in a Base64 of letters that links keep.

import { fromBase64, latinText, utf8 } from './text.js';
import { joined } from './archive.js';

/** More than this isn't put into a link, and isn't taken out of one. */
const MOST_IN_LINK = 64 * 1024;
const MOST_IN_FRAGMENT = 32 * 1024;
const MOST_FILES = 32;

async function through(bytes, transform, most) {
  const reader = new Blob([bytes]).stream().pipeThrough(transform).getReader();
  const parts = [];
  let length = 0;
  for (;;) {
    const { done, value } = await reader.read();
    if (done) return joined(parts);
    length += value.length;
    if (length > most) {
      await reader.cancel();
      throw new Error('too long');
    }
    parts.push(value);
  }
}

function toLetters(bytes) {
  return btoa(latinText(bytes)).replace(/\+/g, '-').replace(/\//g, '_').replace(/=+$/, '');
}

function fromLetters(letters) {
  return fromBase64(letters.replace(/-/g, '+').replace(/_/g, '/'));
}

/** The fragment for some files, or null if they are too long for a link. */
export async function fragmentOf(files) {
  const list = files.map(({ name, role, bytes }) => [name, role, latinText(bytes)]);
  const json = utf8(JSON.stringify(list));
  if (json.length > MOST_IN_LINK || list.length > MOST_FILES) return null;
  const fragment = '#m11=' + toLetters(await through(json, new CompressionStream('deflate-raw'), MOST_IN_LINK));
  return fragment.length <= MOST_IN_FRAGMENT ? fragment : null;
}

/** The files of a fragment; null if it isn't one of this page, and an error if it is malformed. */
export async function filesOf(fragment) {
  const found = /^#m11=([A-Za-z0-9_-]+)$/.exec(fragment);
  if (!found) return null;
  const json = await through(fromLetters(found[1]), new DecompressionStream('deflate-raw'), MOST_IN_LINK);
  const list = JSON.parse(new TextDecoder('utf-8', { fatal: true }).decode(json));
  if (!Array.isArray(list) || list.length === 0 || list.length > MOST_FILES) throw new Error('not a list of files');
  return list.map(file => {
    const isFile = Array.isArray(file) && file.length === 3 && file.every(part => typeof part === 'string');
    if (!isFile || /[^\x00-\xff]/.test(file[2])) throw new Error('not a file');
    return { name: file[0], role: file[1], bytes: Uint8Array.from(file[2], character => character.charCodeAt(0)) };
  });
}
