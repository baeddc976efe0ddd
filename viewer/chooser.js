'use strict';
// A box for each terminal, by pairs: those that are ticked are the filter's, several at once.

class Chooser {
  // `choose` is told the names that are ticked.
  constructor(element, { choose }) {
    this.element = element;
    this.tellChosen = choose;
    element.addEventListener('change', () => this.tell());
  }

  show(report, groups) {
    const withTerminals = groups.filter(group => group.what !== 'class' && group.lanes.length);
    this.element.replaceChildren(...withTerminals.map(group => {
      const box = makeElement('fieldset', ''), all = makeElement('button', '', 'all'), none = makeElement('button', '', 'none');
      const boxes = makeElement('div', 'ticks');
      boxes.append(...group.lanes.map(lane => this.tick(report.laneName(lane))));
      all.addEventListener('click', () => this.tickAll(boxes, true));
      none.addEventListener('click', () => this.tickAll(boxes, false));
      for (const [button, what] of [[all, 'all'], [none, 'none']]) button.setAttribute('aria-label', `${what} of ${group.name}`);
      box.append(makeElement('legend', '', group.name), all, none, boxes);
      return box;
    }));
  }

  tick(name) {
    const label = makeElement('label', ''), input = makeElement('input', '');
    input.type = 'checkbox';
    input.value = name;
    label.append(input, name);
    return label;
  }

  ticks() { return [...this.element.querySelectorAll('input')]; }

  tickAll(boxes, isOn) {
    for (const input of boxes.querySelectorAll('input')) input.checked = isOn;
    this.tell();
  }

  tell() { this.tellChosen(this.ticks().filter(input => input.checked).map(input => input.value)); }

  // Ticks the terminals that the filter names.
  mark(names) {
    for (const input of this.ticks()) input.checked = names.has(input.value);
  }
}
