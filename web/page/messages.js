// The messages of a build, each of which leads to its line.

import { button, byId, make } from './elements.js';
import { several } from './text.js';

/** More messages than this are counted, and not shown. */
const MOST_SHOWN = 500;

export function showMessages(messages, goTo) {
  const errors = messages.filter(message => message.isError);
  const shown = messages.slice(0, MOST_SHOWN);
  byId('messages-list').replaceChildren(...shown.map(message => item(message, goTo)));
  if (messages.length > MOST_SHOWN) {
    byId('messages-list').append(make('li', { class: 'note' }, `… and ${messages.length - MOST_SHOWN} more`));
  }
  byId('messages-count').textContent = errors.length ? several(errors.length, 'message') : '';
  byId('messages').classList.toggle('has-errors', errors.length > 0);
}

function item(message, goTo) {
  const kind = message.isError ? 'error' : 'note';
  const words = message.words ? make('span', { class: 'words' }, message.words) : '';
  const text = make(message.flags ? 'code' : 'span', { class: 'text' }, message.text);
  const parts = message.flags ? flaggedParts(message, text) : [text, ' ', words];
  if (!message.file) return make('li', { class: kind }, ...parts);
  const place = make('span', { class: 'place' }, `${message.file}:${message.line}`);
  const leads = button('', () => goTo(message.file, message.line), { class: 'leads' });
  leads.append(place, ' ', ...parts);
  return make('li', { class: kind }, leads);
}

// A line for each flag, the line of the source, and what to do if that is known.
function flaggedParts(message, text) {
  const flags = message.flags.map(([flag, words]) =>
    make('span', { class: 'flag' }, make('b', { class: 'flags' }, flag), ' ', make('span', { class: 'words' }, words)));
  const advice = message.advice ? [make('span', { class: 'advice' }, message.advice)] : [];
  return [...flags, text, ...advice];
}
