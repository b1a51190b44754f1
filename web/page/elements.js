// Making and finding elements. Texts of others become text and nothing else: no function here reads markup.

/** Whether the device has keys, as far as a page can tell: one for fingers alone is shown no names of keys. */
export const HAS_KEYS = !matchMedia('(hover: none) and (pointer: coarse)').matches;

/** The element of the page with this id. */
export function byId(id) {
  return document.getElementById(id);
}

/** A new element with properties, and with texts or elements inside. */
export function make(tag, properties = {}, ...inside) {
  const element = document.createElement(tag);
  for (const [name, value] of Object.entries(properties)) {
    if (name === 'class') element.className = value;
    else if (name === 'on') for (const [kind, listener] of Object.entries(value)) element.addEventListener(kind, listener);
    else if (name in element && typeof value !== 'string') element[name] = value;
    else if (value !== null) element.setAttribute(name, value);
  }
  element.append(...inside);
  return element;
}

/** A button with a text. */
export function button(text, click, properties = {}) {
  return make('button', { type: 'button', ...properties, on: { click } }, text);
}

/** Keys in a row of tabs: arrows, Home and End go from one to another. */
export function tabKeys(list) {
  list.addEventListener('keydown', event => {
    const tabs = [...list.querySelectorAll('[role=tab]')].filter(tab => tab.offsetParent);
    const at = tabs.indexOf(document.activeElement);
    const to = { ArrowRight: at + 1, ArrowLeft: at - 1, Home: 0, End: tabs.length - 1 }[event.key];
    if (at < 0 || to === undefined || event.altKey || event.ctrlKey || event.metaKey) return;
    event.preventDefault();
    const tab = tabs[(to + tabs.length) % tabs.length];
    tab.focus();
    tab.click();
    // A click may have drawn the row anew.
    list.querySelector('[role=tab][aria-selected=true]')?.focus();
  });
}

/** Says something to a screen reader. */
export function say(text) {
  byId('said').textContent = text;
}

/** Asks yes or no in a dialog of the page. */
export function confirmed(question, yes) {
  const dialog = byId('confirm');
  byId('confirm-question').textContent = question;
  byId('confirm-yes').textContent = yes;
  dialog.returnValue = '';
  dialog.showModal();
  return new Promise(resolve => dialog.addEventListener('close', () => resolve(dialog.returnValue === 'yes'), { once: true }));
}
