// What is marked at lines of sources: breakpoints, flagged lines, and the line that runs next. Lines move when text is put before them.

export class Marks {
  constructor(changed) {
    this.breaks = new Map();
    this.addresses = new Set();
    this.flagged = new Map();
    this.next = null;
    this.changed = changed;
    this.toggle = () => {};
  }

  of(file, line) {
    return {
      isBreak: this.breaks.get(file)?.has(line) ?? false,
      isFlagged: this.flagged.get(file)?.has(line) ?? false,
      isNext: this.next !== null && this.next.file === file && this.next.line === line,
    };
  }

  /** Sets a breakpoint at a line, or removes it. Returns whether there is one now. */
  turn(file, line) {
    const lines = this.breaks.get(file) ?? new Set();
    const isSet = !lines.delete(line);
    if (isSet) lines.add(line);
    this.breaks.set(file, lines);
    this.changed();
    return isSet;
  }

  turnAddress(address) {
    if (!this.addresses.delete(address)) this.addresses.add(address);
    this.changed();
  }

  flag(messages) {
    this.flagged = new Map();
    for (const { file, line } of messages) {
      if (!file) continue;
      if (!this.flagged.has(file)) this.flagged.set(file, new Set());
      this.flagged.get(file).add(line);
    }
  }

  /** Lines after this one have moved by so many. */
  move(file, line, by) {
    for (const marks of [this.breaks, this.flagged]) {
      const lines = marks.get(file);
      if (!lines) continue;
      const moved = [...lines].map(one => (one > line ? one + by : one)).filter(one => one >= 1 && (by > 0 || one > 0));
      marks.set(file, new Set(moved));
    }
  }

  rename(from, to) {
    if (from === to) return;
    for (const marks of [this.breaks, this.flagged]) {
      if (marks.has(from)) marks.set(to, marks.get(from));
      marks.delete(from);
    }
  }

  /** The addresses of all breakpoints, as far as lines have one. */
  at(places) {
    const found = new Set(this.addresses);
    for (const [file, lines] of this.breaks) {
      for (const line of lines) {
        const address = places.addressOf(file, line);
        if (address !== null) found.add(address);
      }
    }
    return found;
  }

  /** For storage. */
  list() {
    return [...this.breaks].map(([file, lines]) => [file, [...lines]]);
  }

  set(list) {
    this.breaks = new Map();
    for (const [file, lines] of Array.isArray(list) ? list : []) {
      this.breaks.set(String(file), new Set(lines.filter(line => Number.isInteger(line) && line > 0)));
    }
  }
}
