'use strict';
// How a report and a deck come into the page: by a file, by a drop, or pasted into the text box.

// Of some texts the deck is the one that begins with a section line; the other is the report. A deck is that of the
// report that is shown, or where none is, of the next one.
class Input {
  constructor(draw) {
    this.draw = draw;
    this.report = null;
    this.deck = '';
    get('text').addEventListener('input', () => { if (this.report !== null) this.deck = ''; this.report = null; });
    get('draw').addEventListener('click', () => this.drawPasted());
    get('file').addEventListener('change', event => this.take([...event.target.files]));
    this.listenForDrops();
  }

  listenForDrops() {
    const drop = get('drop'), isOver = on => event => { event.preventDefault(); drop.classList.toggle('over', on); };
    drop.addEventListener('dragover', isOver(true));
    drop.addEventListener('dragleave', isOver(false));
    // A report may be dropped anywhere, also where the box is closed.
    document.addEventListener('dragover', event => event.preventDefault());
    document.addEventListener('drop', event => { isOver(false)(event); this.take([...event.dataTransfer.files]); });
  }

  drawPasted() {
    if (this.report === null || get('text').value) this.report = get('text').value;
    this.draw(this.report, this.deck);
  }

  async take(files) {
    get('verdict').textContent = 'Reading ..';
    const texts = await Promise.all(files.map(file => file.text())), isDeck = text => /^\s*\?/.test(text);
    const deck = texts.find(isDeck), report = texts.find(text => !isDeck(text));
    if (deck !== undefined) this.deck = deck; else if (this.report !== null) this.deck = '';
    if (report !== undefined) this.keep(report);
    if (this.report !== null) this.draw(this.report, this.deck);
    else get('verdict').textContent = 'Now the report of this deck';
  }

  keep(report) {
    this.report = report;
    const isShort = report.length <= MOST_PASTED;
    get('text').value = isShort ? report : '';
    get('text').placeholder = isShort ? '' : `a report of ${report.length} characters`;
  }
}

const input = new Input((report, deck) => page.draw(report, deck));
