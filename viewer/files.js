'use strict';
// The files after the run, and before it where the deck tells, each record on a line of a virtual list.

function showFiles(element, report, deck) {
  element.replaceChildren(...report.files.map(file => {
    const box = document.createElement('div'), title = document.createElement('h3'), halves = document.createElement('div');
    const after = report.recordsOf(file), before = deck && deck.files.get(file.name);
    title.textContent = file.name;
    halves.className = 'halves';
    if (before) halves.append(fileHalf(file.name, 'before', before, after, 'gone'));
    halves.append(fileHalf(file.name, 'after', after, before, 'new'));
    box.className = 'file';
    box.dataset.file = file.name;
    box.append(title, halves);
    return box;
  }));
}

// One half of a file. A record that the other half lacks is marked by a word and a sign, not by its colour alone.
function fileHalf(name, half, records, others, mark) {
  const box = document.createElement('div'), title = document.createElement('h4'), element = document.createElement('div');
  const known = others && new Set(others);
  title.textContent = `${half} (${records.length})`;
  element.id = `file-${name}-${half}`;
  element.className = 'list records';
  element.style.height = `${Math.min(12, Math.max(1, records.length)) * LINE_HIGH + 2}px`;
  element.setAttribute('aria-label', `${name} ${half} the run`);
  box.className = 'half';
  box.dataset.half = half;
  box.append(title, element);
  const list = new VirtualList(element, {
    fill: (item, line) => {
      const isOther = known && !known.has(records[item]);
      line.classList.add('record');
      if (isOther) line.classList.add(mark);
      line.dataset.sign = isOther ? { gone: '-', new: '+' }[mark] : ' ';
      line.textContent = records[item];
    },
  });
  list.show(records.length);
  return box;
}
