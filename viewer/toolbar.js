'use strict';
// A row of buttons in which the arrow keys go from one to the next; the Tab key comes to one of them.

class Toolbar {
  constructor(element) {
    this.element = element;
    element.addEventListener('keydown', event => this.move(event));
  }

  show(buttons) {
    buttons.forEach((button, i) => { button.tabIndex = i ? -1 : 0; });
    this.element.replaceChildren(...buttons);
  }

  move(event) {
    const buttons = [...this.element.querySelectorAll('button')], place = buttons.indexOf(event.target), last = buttons.length - 1;
    const next = { ArrowRight: Math.min(last, place + 1), ArrowLeft: Math.max(0, place - 1), Home: 0, End: last }[event.key];
    if (place < 0 || next === undefined) return;
    event.preventDefault();
    buttons[place].tabIndex = -1;
    buttons[next].tabIndex = 0;
    buttons[next].focus();
  }
}
