// The view of the machine: arrivals, costs and settings, and what napi_machine predicts for today's settings and the moved ones.
const SETTINGS = ['budget', 'rx-nsecs', 'rx-frames', 'rx-gap', 'defer-hard-irqs', 'gro-flush-timeout', 'ring', 'socket', 'queues', 'processors', 'threaded', 'apart'];
const COSTS = ['interrupt', 'poll', 'packet', 'use', 'wake', 'app-wake', 'timer', 'take'];
const IN_US = { 'rx-nsecs': 'rx-usecs', 'rx-gap': 'rx-usecs as a least gap', 'gro-flush-timeout': 'gro_flush_timeout, \u00b5s' };
const HIGHEST = { budget: 1000, 'rx-nsecs': 1000, 'rx-gap': 1000, 'gro-flush-timeout': 1000, 'rx-frames': 256, 'defer-hard-irqs': 20, ring: 4096, socket: 4096, queues: 16, processors: 16 };
const PACKETS = 20000;
// What docs/NAPI.md explains, each by the one thing to move: arrivals, today's settings, the moved ones.
const SHOWN = {
  'Polling or interrupts': [{ shape: 'constant', rate: 200000 }, { budget: 0 }, { budget: 300 }],
  'Interrupt coalescing': [{ shape: 'Poisson', rate: 50000 }, {}, { 'rx-nsecs': 50000 }],
  'Deferral of interrupts': [{ shape: 'Poisson', rate: 100000 }, {}, { 'defer-hard-irqs': 2, 'gro-flush-timeout': 50000 }],
  'A second queue': [{ shape: 'Poisson', rate: 200000 }, {}, { queues: 2, processors: 2 }],
  'A larger ring': [{ shape: 'bursts', rate: 50000, burst: 1000 }, { ring: 256 }, { ring: 2048 }],
  'A program apart': [{ shape: 'Poisson', rate: 150000 }, {}, { apart: 1 }],
};

// A generator of numbers from 0 to 1, the same each time (mulberry32).
function randomOf(seed) {
  return () => {
    seed = (seed + 0x6d2b79f5) | 0;
    let value = Math.imul(seed ^ seed >>> 15, 1 | seed);
    value = value + Math.imul(value ^ value >>> 7, 61 | value) ^ value;
    return ((value ^ value >>> 14) >>> 0) / 4294967296;
  };
}

// Packets that come at a rate: their times in ns, and their flows.
function generated({ shape, rate, burst }) {
  const random = randomOf(7), lines = ['ns,device,bytes,flow'], apart = 1e9 / rate;
  let moment = 0;
  for (let packet = 0; packet < PACKETS; packet++) {
    if (shape === 'Poisson') moment += -Math.log(1 - random()) * apart;
    else if (shape === 'bursts') moment += packet % burst ? 100 : Math.max(apart * burst - 100 * (burst - 1), 0);
    else moment += apart;
    lines.push(`${Math.floor(moment)},1,60,${Math.floor(random() * 1024)}`);
  }
  return lines;
}

class MachineView {
  constructor(page, options) {
    Object.assign(this, { page, options: new Map(options.map(option => [option.name, option])), today: {}, moved: {}, costs: {} });
    for (const name of SETTINGS) this.addSlider(name);
    for (const name of COSTS) this.addCost(name);
    for (const name in SHOWN) by('shown').append(new Option(name));
    by('shown').addEventListener('change', () => { if (by('shown').value) this.showOne(SHOWN[by('shown').value]); });
    for (const id of ['shape', 'rate', 'burst']) by(id).addEventListener('input', () => { this.file = null; this.run(); });
    by('as_today').addEventListener('click', () => { this.today = { ...this.moved }; this.run(); });
    by('reset').addEventListener('click', () => { this.moved = { ...this.today }; this.tell(); this.run(); });
    by('words').addEventListener('change', () => this.takeWords(by('words').value));
  }
  defaultOf(name) {
    const { default: usual } = this.options.get(name);
    return typeof usual === 'number' ? usual : this.costs[usual] ?? this.defaultOf(usual);
  }
  scaleOf(name) { return name in IN_US ? 1000 : 1; }
  addSlider(name) {
    const option = this.options.get(name), label = made('label', 'slider', ''), input = made('input'), output = made('output');
    const most = HIGHEST[name] ?? option.most, scale = this.scaleOf(name);
    Object.assign(input, { type: 'range', min: option.least / scale, max: most, step: 1, id: `of-${name}` });
    label.title = option.what;
    label.append(made('span', '', IN_US[name] || name), input, output);
    input.addEventListener('input', () => {
      this.moved[name] = Number(input.value) * scale;
      if (name === 'rx-gap' && this.moved[name]) this.moved['rx-nsecs'] = this.moved['rx-frames'] = 0;
      if (['rx-nsecs', 'rx-frames'].includes(name) && this.moved[name]) this.moved['rx-gap'] = 0;
      this.tell();
      this.run();
    });
    by('settings').append(label);
  }
  addCost(name) {
    const label = made('label', 'cost', name), input = made('input');
    Object.assign(input, { type: 'number', min: 0, max: 1000000000, id: `cost-${name}` });
    label.title = this.options.get(name).what;
    label.append(input, ' ns');
    input.addEventListener('input', () => {
      if (input.value === '') delete this.costs[name];
      else this.costs[name] = Number(input.value);
      this.run();
    });
    by('costs').append(label);
  }
  // Takes the costs that `fintaqush costs RECORDING --words` prints.
  takeWords(text) {
    for (const [, name, value] of text.matchAll(/--([a-z-]+)[ =](\d+)/g)) {
      if (COSTS.includes(name)) this.costs[name] = Number(value);
      else if (this.options.has(name)) this.today[name] = this.moved[name] = Number(value);
    }
    this.tell();
    this.run();
  }
  showOne([arrivals, today, moved]) {
    by('shape').value = arrivals.shape;
    by('rate').value = Math.log10(arrivals.rate);
    if (arrivals.burst) by('burst').value = Math.log2(arrivals.burst);
    Object.assign(this, { file: null, today: { ...today }, moved: { ...moved } });
    this.tell();
    this.run();
  }
  tell() {
    for (const name of SETTINGS) {
      const value = this.moved[name] ?? this.defaultOf(name), input = by(`of-${name}`);
      input.value = value / this.scaleOf(name);
      input.nextSibling.value = grouped(value / this.scaleOf(name));
    }
    for (const name of COSTS) {
      by(`cost-${name}`).placeholder = this.defaultOf(name);
      by(`cost-${name}`).value = this.costs[name] ?? '';
    }
  }
  take(bytes, name, note = '') {
    this.file = { bytes, name, note };
    return this.run();
  }
  // Draws a table of what-if, until something is moved.
  takeTable(text, name) {
    this.table = new Table(text);
    this.count++; // what is under way isn't shown
    by('from_file').textContent = `table ${name}`;
    this.draw();
  }
  arrivals() {
    const rate = 10 ** Number(by('rate').value), burst = Math.round(2 ** Number(by('burst').value)), shape = by('shape').value;
    by('rate_is').value = `${grouped(rate)} a second`;
    by('burst_is').value = `${burst} packets`;
    by('of_burst').hidden = shape !== 'bursts' || Boolean(this.file);
    by('from_file').textContent = this.file ? `arrivals of ${this.file.name}. ${this.file.note}` : '';
    return this.file ? { lines: null, has: false } : { lines: generated({ shape, rate, burst }), has: true };
  }
  wordsOf(settings) {
    return Object.entries({ ...this.costs, ...settings }).map(([name, value]) => `--${name}=${value}`);
  }
  run() { return this.running = this.predict(); }
  async predict() {
    if (this.page.view !== 'machine') return;
    this.table = null;
    const { lines } = this.arrivals(), results = [];
    for (const settings of [this.today, this.moved]) {
      const hasFlows = (settings.queues || 1) > 1;
      const input = this.file ? this.file.bytes : new TextEncoder().encode(lines.map(line => hasFlows ? line : line.slice(0, line.lastIndexOf(','))).join('\n') + '\n');
      results.push({ input, runs: [{ program: 'napi_machine', words: this.wordsOf(settings) }] });
    }
    const number = ++this.count || (this.count = 1), moves = this.valuesMoved();
    const [today, moved] = await Promise.all(results.map(({ input, runs }) => this.page.ask(input, runs)));
    if (number !== this.count) return; // a later one is on its way
    this.moves = moves;
    this.shown = [today, moved].map(([{ status, out, said }]) => status ? { fault: textOf(said).trim() } : reportOf(textOf(out)));
    this.draw();
    this.page.link();
  }
  draw() {
    if (this.table) return this.show(this.table, this.table.height());
    if (!this.shown) return;
    const wrong = this.shown.find(each => each.fault);
    if (wrong) by('predicted').textContent = wrong.fault;
    if (wrong) by('predicted').className = 'bad';
    if (!wrong) this.show(this, 344);
  }
  show(picture, high) {
    by('predicted').textContent = picture.told();
    by('predicted').className = '';
    by('waits').style.height = `${high}px`;
    picture.drawBy(new CanvasPen(by('waits')));
    by('waits').setAttribute('aria-label', picture.told());
    by('compared').replaceChildren(...picture.rows().map((cells, place) => rowOf(cells, place ? 'td' : 'th')));
  }
  told() {
    const [today, moved] = this.shown, part = ({ waits, total, shares }) => `median wait ${timeOf(waits[0])}, 99 % below ${timeOf(waits[2])}, ${grouped(total.dropped + total.refused)} of ${grouped(total.arrived)} packets dropped, processors ${(100 - shares.idle).toFixed(0)} % busy`;
    return `Today${this.moves[0]}: ${part(today)}. Moved${this.moves[1]}: ${part(moved)}.`;
  }
  // The values of the settings that were moved, in parentheses: today's, and the moved ones.
  valuesMoved() {
    const valueOf = (settings, name) => settings[name] ?? this.defaultOf(name);
    const names = SETTINGS.filter(name => valueOf(this.today, name) !== valueOf(this.moved, name));
    const listed = settings => names.map(name => `${IN_US[name] || name} ${grouped(valueOf(settings, name) / this.scaleOf(name))}`).join(', ');
    return [this.today, this.moved].map(settings => names.length ? ` (${listed(settings)})` : '');
  }
  rows() {
    const of = pick => this.shown.map(pick);
    return [['', 'today', 'moved'], ['packets', ...of(it => grouped(it.total.arrived))], ['dropped by a ring', ...of(it => grouped(it.total.dropped))],
      ['dropped by a socket', ...of(it => grouped(it.total.refused))], ['used', ...of(it => grouped(it.total.used))], ['interrupts', ...of(it => grouped(it.interrupts))],
      ['polls', ...of(it => grouped(it.polls))], ['squeezed runs', ...of(it => grouped(it.squeezed))],
      ...NAMES_OF_WAITS.map((name, place) => [`wait to the end of use, ${name}`, ...of(it => timeOf(it.waits[place]))])];
  }
  drawBy(pen) {
    pen.rect(0, 0, pen.wide, pen.high, 'page');
    const most = Math.max(...this.shown.flatMap(({ waits }) => waits), 1000), low = 2, high = Math.ceil(Math.log10(most)), colors = ['quiet', 'fill'], names = ['today', 'moved'];
    const left = 120, room = pen.wide - left - 90, x = value => left + Math.max(0, (Math.log10(Math.max(value, 1)) - low) / (high - low)) * room;
    pen.text(8, 16, 'Wait from arrival to the end of use', 'text');
    for (let power = low; power <= high; power++) {
      pen.rect(x(10 ** power), 24, 0.6, 190, 'line');
      pen.text(x(10 ** power), 228, timeOf(10 ** power), 'quiet', 'center');
    }
    NAMES_OF_WAITS.forEach((name, place) => {
      const top = 30 + place * 37;
      pen.text(left - 8, top + 17, name, 'quiet', 'right');
      this.shown.forEach(({ waits }, number) => {
        pen.rect(left, top + number * 14, Math.max(x(waits[place]) - left, 1), 12, colors[number]);
        pen.text(x(waits[place]) + 5, top + number * 14 + 10, `${timeOf(waits[place])} ${names[number]}`, 'text');
      });
    });
    this.drawShares(pen, 262, left, pen.wide - left - 20, names);
  }
  // Draws the shares of the processors' time, each with its name.
  drawShares(pen, top, left, room, names) {
    const colors = { interrupt: 'bad', poll: 'fill', use: 'used', idle: 'empty' };
    pen.text(8, top - 6, 'Processor time', 'text');
    this.shown.forEach(({ shares }, number) => {
      let at = left;
      pen.text(left - 8, top + 14 + number * 26, names[number], 'quiet', 'right');
      for (const name in colors) {
        const wide = shares[name] / 100 * room;
        pen.rect(at, top + number * 26, wide, 20, colors[name]);
        const text = `${name} ${shares[name].toFixed(0)} %`;
        if (wide > 8 + 7 * text.length) pen.text(at + 4, top + 14 + number * 26, text, name === 'idle' ? 'text' : 'page');
        at += wide;
      }
    });
    let at = 8;
    for (const name in colors) {
      pen.rect(at, top + 58, 12, 12, colors[name]);
      pen.text(at + 16, top + 68, name, 'text');
      at += 36 + 7 * name.length;
    }
  }
}

const NAMES_OF_WAITS = ['median', '90 %', '99 %', '99.9 %', 'longest'];
const timeOf = ns => ns < 1000 ? `${ns} ns` : ns < 1e6 ? `${Number((ns / 1e3).toPrecision(3))} \u00b5s` : ns < 1e9 ? `${Number((ns / 1e6).toPrecision(3))} ms` : `${Number((ns / 1e9).toPrecision(3))} s`;

// The numbers of a report of napi_machine. Waits are those of the processor where they are the longest.
function reportOf(text) {
  const kinds = { device: [], processor: [], time: [], application: [], total: [] };
  for (const line of text.trim().split('\n')) {
    const [kind, ...rest] = line.split(' '), fields = kind === 'total' ? rest : ['number', ...rest], values = {};
    for (let place = 0; place < fields.length; place += 2) values[fields[place]] = Number(fields[place + 1]);
    kinds[kind].push(values);
  }
  const sum = (lines, name) => lines.reduce((sum, line) => sum + line[name], 0), whole = sum(kinds.time, 'end') || 1;
  const shares = Object.fromEntries(['interrupt', 'poll', 'use', 'idle'].map(name => [name, 100 * sum(kinds.time, name) / whole]));
  const waits = ['wait50', 'wait90', 'wait99', 'wait999', 'most'].map(name => Math.max(...kinds.processor.map(line => line[name])));
  return { waits, shares, total: kinds.total[0], interrupts: sum(kinds.processor, 'interrupts'), polls: sum(kinds.processor, 'polls'), squeezed: sum(kinds.processor, 'squeezed') };
}
