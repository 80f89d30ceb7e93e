'use strict';

// A run: the state after any of its steps, from the differences that the steps make.
class Run {
  constructor(data) {
    this.data = data;
    this.last = data.steps.length;
    // The states after each so many steps, as far as they were needed.
    this.kept = [new Map(data.start)];
  }

  // The differences that step n makes, counted from 1.
  differences(n) {
    return n > 0 ? this.data.steps[n - 1][3] : [];
  }

  // What is shown after n steps, by place.
  after(n) {
    const nearest = Math.floor(n / Run.EVERY);
    while (this.kept.length <= nearest) {
      const from = (this.kept.length - 1) * Run.EVERY;
      this.kept.push(this.forward(this.kept[this.kept.length - 1], from, from + Run.EVERY));
    }
    return this.forward(this.kept[nearest], nearest * Run.EVERY, n);
  }

  // What is shown after some steps more.
  forward(state, from, to) {
    const next = new Map(state);
    for (let n = from + 1; n <= to; n += 1) {
      for (const [place, shows] of this.differences(n)) {
        if (shows === null) next.delete(place);
        else next.set(place, shows);
      }
    }
    return next;
  }

  // Where the run stands after n steps: image, line, version, block and text; none at DONE.
  place(n) {
    const number = n < this.last ? this.data.steps[n][0] : this.data.standing;
    return number === null ? null : this.data.places[number];
  }

  // How many calls and forces were live at step n + 1.
  depth(n) {
    return n < this.last ? this.data.steps[n][1] : 0;
  }

  // The next number of steps where no more calls and forces are live than after n.
  over(n, way) {
    const depth = this.depth(n);
    let next = n + way;
    while (next > 0 && next < this.last && this.depth(next) > depth) next += way;
    return this.within(next);
  }

  // The nearest number of steps that there is.
  within(n) {
    return Math.min(Math.max(Math.round(n) || 0, 0), this.last);
  }

  // Step n in words.
  words(n) {
    const [number, , did] = this.data.steps[n - 1];
    const text = number === null ? '' : this.data.places[number][4];
    return did ? `${n}  ${text} → ${did}` : `${n}  ${text}`;
  }
}
Run.EVERY = 256;

// The numbers in a place such as c12.r3, to sort by.
function numbers(place) {
  return (place.match(/\d+/g) || []).map(Number);
}

function byNumbers(one, other) {
  const [a, b] = [numbers(one[0]), numbers(other[0])];
  return a[0] - b[0] || (a[1] || 0) - (b[1] || 0);
}

// The page: it shows a run after a number of steps.
class Page {
  constructor(run, document) {
    this.run = run;
    this.document = document;
    this.step = 0;
    this.image = null;
    this.get('slider').max = run.last;
    this.get('number').max = run.last;
    this.get('of').textContent = `of ${run.last}`;
    this.get('result').textContent = `${run.data.result} after ${run.last} steps`;
    this.listen();
    this.show(0);
  }

  get(id) {
    return this.document.getElementById(id);
  }

  // A new element with a class and a text.
  make(name, text, kind) {
    const element = this.document.createElement(name);
    element.textContent = text;
    if (kind) element.className = kind;
    return element;
  }

  listen() {
    const go = (id, target) => this.get(id).addEventListener('click', () => this.show(target()));
    go('first', () => 0);
    go('back', () => this.step - 1);
    go('forward', () => this.step + 1);
    go('over', () => this.run.over(this.step, 1));
    go('last', () => this.run.last);
    this.get('slider').addEventListener('input', (event) => this.show(Number(event.target.value)));
    this.get('number').addEventListener('change', (event) => this.show(Number(event.target.value)));
    this.document.addEventListener('keydown', (event) => this.key(event));
  }

  key(event) {
    const typing = event.target && event.target.id === 'number';
    if (typing || event.ctrlKey || event.altKey || event.metaKey) return;
    const targets = {
      ArrowRight: () => this.step + 1,
      ArrowLeft: () => this.step - 1,
      PageDown: () => this.step + 100,
      PageUp: () => this.step - 100,
      Home: () => 0,
      End: () => this.run.last,
      o: () => this.run.over(this.step, 1),
      O: () => this.run.over(this.step, -1),
    };
    const target = targets[event.key];
    if (!target) return;
    event.preventDefault();
    this.show(target());
  }

  // Shows the run after n steps.
  show(n) {
    this.step = this.run.within(n);
    this.get('slider').value = this.step;
    this.get('number').value = this.step;
    const did = this.step > 0 ? this.run.words(this.step) : 'before the first step';
    this.get('now').textContent = did;
    this.showSource();
    this.showSteps();
    this.showState();
  }

  showSource() {
    const place = this.run.place(this.step);
    const image = place ? place[0] : this.run.data.images.length - 1;
    if (image !== this.image) this.showImage(image);
    if (this.here) this.here.className = '';
    this.here = place ? this.get('lines').children[place[1] - 1] : null;
    if (!this.here) return;
    this.here.className = 'here';
    const list = this.get('lines');
    const top = this.here.offsetTop - list.offsetTop;
    const outside = top < list.scrollTop || top + this.here.offsetHeight > list.scrollTop + list.clientHeight;
    if (outside) list.scrollTop = top - list.clientHeight / 2;
  }

  showImage(number) {
    const image = this.run.data.images[number];
    this.image = number;
    this.names = new Map(image.names.map(([version, register, name]) => [`${version} ${register}`, name]));
    this.here = null;
    this.get('image').textContent = image.name;
    const lines = image.lines.map((line, index) => {
      const item = this.make('li', line);
      item.dataset.number = index + 1;
      return item;
    });
    this.get('lines').replaceChildren(...lines);
  }

  // The steps around this one.
  showSteps() {
    const items = [];
    const first = Math.max(1, Math.min(this.step - 4, this.run.last - 8));
    for (let n = first; n <= Math.min(first + 8, this.run.last); n += 1) {
      const item = this.make('li', '', n === this.step ? 'here' : '');
      const button = this.make('button', this.run.words(n));
      button.addEventListener('click', () => this.show(n));
      item.append(button);
      items.push(item);
    }
    this.get('steps').replaceChildren(...items);
  }

  showState() {
    const state = [...this.run.after(this.step)].sort(byNumbers);
    const changed = new Set(this.run.differences(this.step).map(([place]) => place));
    const kind = (place) => (changed.has(place) ? 'new' : '');
    const of = (letter) => state.filter(([place]) => place[0] === letter);
    const stack = of('a').reverse().map(([place, shows], index) => {
      const words = index === 0 ? shows : shows.replace(': ', ', goes on with: ');
      return this.make('li', words, kind(place));
    });
    this.get('stack').replaceChildren(...stack);
    for (const [id, letter] of [['vectors', 'v'], ['promises', 'p']]) {
      const rows = of(letter).map(([place, shows]) => this.row(place, shows, kind(place)));
      this.get(id).replaceChildren(...rows);
    }
    this.showCalls(of('c'), kind);
  }

  row(name, shows, kind) {
    const row = this.make('div', '', kind);
    row.append(this.make('dt', name), this.make('dd', ` ${shows}`));
    return row;
  }

  // The calls, the newest first, with their registers and then their names.
  showCalls(places, kind) {
    const heads = places.filter(([place]) => !place.includes('.')).reverse();
    const cell = (place) => place.split('.')[1];
    // What the text calls a register of a version; its number where it has no name.
    const called = (version, place) => this.names.get(`${version} ${cell(place)}`) || cell(place);
    const calls = heads.map(([head, version]) => {
      const inside = places.filter(([place]) => place.startsWith(`${head}.`));
      const cells = this.make('ul', '', 'cells');
      for (const letter of ['r', 'x']) {
        for (const [place, shows] of inside.filter(([name]) => cell(name)[0] === letter)) {
          const name = called(version, place);
          const words = shows === '' ? `${name} empty` : `${name} = ${shows}`;
          const empty = shows === '' ? ' empty' : '';
          cells.append(this.make('li', words, kind(place) + empty));
        }
      }
      const call = this.make('div', '', 'call');
      call.append(this.make('h3', `call ${head.slice(1)} of ${version}`, kind(head)), cells);
      return call;
    });
    this.get('calls').replaceChildren(...calls);
  }
}

if (typeof document !== 'undefined') {
  const data = JSON.parse(document.getElementById('run').textContent);
  new Page(new Run(data), document);
}
