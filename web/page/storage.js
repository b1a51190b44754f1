// The files in the browser's storage, so that they are there again when the page is opened. The browser may refuse all of it.

const DATABASE = 'm11';
const STORE = 'workspace';
const KEY = 'files';

function asked(request) {
  return new Promise((resolve, reject) => {
    request.onsuccess = () => resolve(request.result);
    request.onerror = () => reject(request.error);
  });
}

function opened() {
  const request = indexedDB.open(DATABASE, 1);
  request.onupgradeneeded = () => request.result.createObjectStore(STORE);
  return asked(request);
}

// A browser that neither gives nor refuses a storage doesn't keep the page from opening.
function inTime(promise) {
  return Promise.race([promise, new Promise((_, reject) => setTimeout(() => reject(new Error('no answer')), 3000))]);
}

/** Keeps one value, a moment after it was last changed. */
export class Storage {
  constructor(refused) {
    this.refused = refused;
    this.database = null;
    this.isPaused = false;
    this.timer = 0;
    this.make = null;
  }

  /** What is stored, or null if nothing is, or the browser refuses. */
  async load() {
    try {
      this.database = await inTime(opened());
      return (await asked(this.database.transaction(STORE).objectStore(STORE).get(KEY))) ?? null;
    } catch (error) {
      this.refuse(error);
      return null;
    }
  }

  refuse(error) {
    this.database = null;
    this.refused(error?.name || 'refused');
  }

  /** Stores what `make` returns, soon. */
  keep(make) {
    if (!this.database || this.isPaused) return;
    this.make = make;
    clearTimeout(this.timer);
    this.timer = setTimeout(() => this.flush(), 250);
  }

  /** Stores at once what is waiting to be stored. */
  async flush() {
    clearTimeout(this.timer);
    const make = this.make;
    this.make = null;
    if (!make || !this.database) return;
    try {
      await asked(this.database.transaction(STORE, 'readwrite').objectStore(STORE).put(make(), KEY));
    } catch (error) {
      this.refuse(error);
    }
  }
}
