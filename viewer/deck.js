'use strict';
// What a deck tells besides a report: the records of the files before the run, what was typed, and who belongs to whom.

class Deck {
  constructor(text) {
    this.files = new Map();
    this.entries = new Map();
    this.pairs = new Map();
    this.pair = '';                // the pair of the terminals that are added next
    let take = () => {};
    for (const raw of text.split('\n')) {
      const row = raw.replace(/\r$/, '');
      if (row.startsWith('?')) {
        take = this.section(row.slice(1).trim().split(/ +/));
        if (!take) break;
      } else take(row);
    }
    for (const records of this.files.values()) records.sort();
  }

  // What takes the lines of a section, or null at the end of the deck.
  section([kind, name = '']) {
    const lists = { FILE: this.files, ENTRIES: this.entries }[kind.toUpperCase()];
    if (lists) {
      const list = [];
      lists.set(name.toUpperCase(), list);
      return row => { if (row.trim() !== '') list.push(row); };
    }
    if (kind.toUpperCase() === 'END') return null;
    return kind.toUpperCase() === 'PATHCOM' ? row => this.command(row.trim().toUpperCase().split(/ +/)) : () => {};
  }

  // SET TERM TCP holds for the terminals that are added after it.
  command(words) {
    if (words.slice(0, 3).join(' ') === 'SET TERM TCP') [, , , this.pair = ''] = words;
    if (words[0] === 'ADD' && words[1] === 'TERM' && words.length > 2) this.pairs.set(words[2], this.pair);
  }

  // The entry line with a number, from 1, of a terminal.
  entryLine(terminal, number) { return (this.entries.get(terminal) || [])[number - 1]; }
}
