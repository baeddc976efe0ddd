'use strict';
// The link to an entry: the page's address with `#e=218` at its end leads there once a report is given.

const LINK_SOON = 400;     // milliseconds after the last choice before the address tells it

class EntryLink {
  // `go` is told the entry that the address names.
  constructor(element, { go }) {
    this.element = element;
    this.at = 0;
    window.addEventListener('hashchange', () => { if (this.named() !== this.at) go(this.named()); });
  }

  // The entry that the address names, or 0.
  named() {
    const found = /^#e=([1-9][0-9]{0,9})$/.exec(location.hash);
    return found ? Number(found[1]) : 0;
  }

  // Tells the chosen entry by the address and the link; the address only after a while, since a browser holds up who changes it often.
  mark(at) {
    this.at = at;
    this.element.hidden = !at;
    this.element.href = `#e=${at}`;
    this.element.textContent = `#e=${at}`;
    clearTimeout(this.waits);
    this.waits = setTimeout(() => this.settle(), LINK_SOON);
  }

  settle() {
    if (this.named() !== this.at) history.replaceState(null, '', this.at ? `#e=${this.at}` : location.pathname + location.search);
  }
}
