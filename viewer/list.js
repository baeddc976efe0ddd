'use strict';
// A list of any length, of which only the lines in view are in the page. The arrow keys move the chosen line.

const LINE_HIGH = 21;
const SPARE = 8;           // lines above and below the view that are in the page too

class VirtualList {
  // `fill` writes an item into a line; `choose` is told the item that a user takes; `open` the one on which Enter is pressed;
  // and `empty` is what it says without items.
  constructor(element, { fill, choose = () => {}, open = () => {}, empty = 'nothing' }) {
    this.empty = empty;
    this.element = element;
    this.fill = fill;
    this.tellChosen = choose;
    this.tellOpened = open;
    this.items = null;
    this.count = 0;
    this.place = -1;
    this.extent = document.createElement('div');
    this.extent.className = 'extent';
    element.append(this.extent);
    element.tabIndex = 0;
    element.setAttribute('role', 'listbox');
    element.addEventListener('scroll', () => this.drawSoon());
    element.addEventListener('keydown', event => this.onKey(event));
    this.extent.addEventListener('click', event => this.onClick(event));
    new ResizeObserver(() => this.drawSoon()).observe(element);
  }

  // Shows the items of a rising list of numbers, or those from 0 up to a count.
  show(count, items = null) {
    this.items = items;
    this.count = items ? items.length : count;
    this.place = -1;
    this.extent.style.height = `${this.count * LINE_HIGH}px`;
    this.element.scrollTop = 0;
    this.draw();
  }

  itemAt(place) { return this.items ? this.items[place] : place; }

  placeOf(item) {
    if (!this.items) return item < this.count ? item : -1;
    const place = firstNotBelow(this.items, item);
    return this.items[place] === item ? place : -1;
  }

  // Marks an item as the chosen one and brings it into view. It tells nobody.
  mark(item) {
    this.place = item < 0 ? -1 : this.placeOf(item);
    if (this.place >= 0) this.reveal();
    this.draw();
  }

  reveal() {
    const top = this.place * LINE_HIGH, { scrollTop, clientHeight } = this.element;
    if (top < scrollTop) this.element.scrollTop = top;
    else if (top + LINE_HIGH > scrollTop + clientHeight) this.element.scrollTop = top + LINE_HIGH - clientHeight;
  }

  drawSoon() {
    if (this.waits) return;
    this.waits = true;
    requestAnimationFrame(() => { this.waits = false; this.draw(); });
  }

  draw() {
    const { scrollTop, clientHeight } = this.element;
    const first = Math.max(0, Math.floor(scrollTop / LINE_HIGH) - SPARE);
    const end = Math.min(this.count, Math.ceil((scrollTop + clientHeight) / LINE_HIGH) + SPARE);
    const lines = [];
    for (let place = first; place < end; place += 1) lines.push(this.line(place));
    this.extent.replaceChildren(...lines);
    if (!this.count) this.extent.append(Object.assign(document.createElement('p'), { className: 'empty', textContent: this.empty }));
    const chosen = this.place >= first && this.place < end ? `${this.element.id}-${this.place}` : '';
    if (chosen) this.element.setAttribute('aria-activedescendant', chosen); else this.element.removeAttribute('aria-activedescendant');
  }

  line(place) {
    const line = document.createElement('div');
    line.id = `${this.element.id}-${place}`;
    line.className = 'line';
    line.style.top = `${place * LINE_HIGH}px`;
    line.dataset.place = place;
    line.setAttribute('role', 'option');
    line.setAttribute('aria-setsize', this.count);
    line.setAttribute('aria-posinset', place + 1);
    line.setAttribute('aria-selected', place === this.place);
    this.fill(this.itemAt(place), line);
    return line;
  }

  take(place) {
    if (place < 0 || place >= this.count) return;
    this.place = place;
    this.reveal();
    this.draw();
    this.tellChosen(this.itemAt(place));
  }

  onClick(event) {
    const line = event.target.closest('.line');
    if (line) this.take(Number(line.dataset.place));
  }

  onKey(event) {
    const page = Math.max(1, Math.floor(this.element.clientHeight / LINE_HIGH) - 1), last = this.count - 1;
    const places = {
      ArrowUp: Math.max(0, this.place - 1), ArrowDown: Math.min(last, this.place + 1), Home: 0, End: last,
      PageUp: Math.max(0, this.place - page), PageDown: Math.min(last, this.place + page),
    };
    if (event.ctrlKey || event.altKey || event.metaKey) return;
    if (event.key in places) this.take(places[event.key]);
    else if (event.key === 'Enter' && this.place >= 0) this.tellOpened(this.itemAt(this.place));
    else return;
    event.preventDefault();
  }
}
