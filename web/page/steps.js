// The view of steps: after each row of a trace the rings, the flags, the poll list, and what the row did with the kernel's function for it.
const MOST_CELLS = 64, FEW_CARDS = 4;
const FLAGS = { 0: 'SCHED', 1: 'MISSED', 2: 'DISABLE', 3: 'NPSVC', 6: 'IN_BUSY_POLL', 8: 'THREADED', 9: 'SCHED_THREADED', 32: 'QUEUED', 33: 'TO_THREAD' };
// docs/FORMATS.md, "The state word"; the kernel's texts are from include/linux/netdevice.h.
const MEANINGS = {
  SCHED: 'the instance is scheduled, or disabled', MISSED: 'a request for a poll came while SCHED was set; the next completion then causes one more poll',
  DISABLE: 'it is about to be disabled', NPSVC: 'it is disabled (with SCHED)', IN_BUSY_POLL: 'a program busy polls it',
  THREADED: 'its thread polls it, not softirq runs', SCHED_THREADED: 'its thread has it', QUEUED: 'it is on the poll list (a mark of this project)',
  TO_THREAD: 'its thread has to take it (a mark of this project)',
};
const ENDINGS = { again: 'a request was missed: poll again', repoll: 'its whole weight: repoll', absent: 'not taken' };
const POLLERS = { softirq: 'The run', kthread: 'The thread of device {}', busy: 'A program that busy polls device {}' };
const RULES = { softirq: 'net_rx_action', kthread: 'napi_threaded_poll', busy: 'napi_busy_loop' };
const NO_QUEUE = { limit: 0, in_flight: 0, stopped: false };
const countOf = (number, thing) => number === 1 ? `1 ${thing}` : `${number} ${thing}s`;
const capital = text => text[0].toUpperCase() + text.slice(1);
const flagsOf = word => Object.entries(FLAGS).filter(([bit]) => Math.floor(word / 2 ** bit) % 2).map(([, name]) => name);

// A replay by its steps: what the devices and the poll list are after each row.
class Replayed {
  constructor(side, rows, capacities) {
    Object.assign(this, { side, rows, capacities, series: side.series, keys: keysOf(side.series, rows) });
    this.places = new Map(this.keys.map(([row, added], place) => [`${row}+${added}`, place]));
    const counts = new Uint32Array(17), { device, count } = this.series;
    for (let line = 0; line < count; line++) counts[device[line]]++;
    this.linesOf = Array.from(counts, count => new Uint32Array(count));
    counts.fill(0);
    for (let line = 0; line < count; line++) this.linesOf[device[line]][counts[device[line]]++] = line;
  }
  // The device of a line. A row's polls come before a pending disable completes, so it completes here once nothing has the instance scheduled.
  deviceOf(line) {
    const { series } = this, { state } = series.texts(line), flags = flagsOf(series.word[line]), device = series.device[line];
    const isOff = state === 'pending' && !flags.includes('SCHED');
    const entry = { line, device, state: isOff ? 'off' : state, capacity: this.capacities.get(device), left: series.waiting[line], flags: isOff ? ['SCHED', 'NPSVC'] : flags };
    for (const name of ['arrived', 'dropped', 'polled']) entry[name] = series[name][line];
    if (!Number.isNaN(series.limit[line])) entry.tx = { limit: series.limit[line], in_flight: series.in_flight[line], avail: series.avail[line], stopped: series.stopped[line] === 1 };
    return entry;
  }
  // The devices after a line.
  devicesAt(line) {
    const devices = new Map();
    this.linesOf.forEach((lines, device) => {
      const place = device ? lowerBound(lines, line + 1) - 1 : -1;
      if (place >= 0) devices.set(device, this.deviceOf(lines[place]));
    });
    return devices;
  }
  after(place) {
    if (place < 0) return { devices: new Map(), list: [] };
    const line = this.series.rows[place];
    return { devices: this.devicesAt(line), list: this.series.texts(line).list };
  }
  // The polls of a row, with what they leave of the budget and of the window.
  pollsAt(place) {
    const { series } = this, polls = [];
    let work = 0;
    for (let line = place ? series.rows[place - 1] + 1 : 0; line < series.rows[place]; line++) {
      work += series.work[line];
      const { ended, list } = series.texts(line), rule = ['complete', 'again'].includes(ended) ? 'napi_complete_done' : 'napi_poll';
      const left = [Math.max(0, this.side.budget - work), this.side.window - polls.length - 1];
      polls.push({ line, list, rule, cells: [polls.length + 1, series.device[line], series.work[line], ENDINGS[ended] || ended, ...left] });
    }
    return polls;
  }
  isMarked(place) {
    const line = this.series.rows[place];
    return this.series.squeezed[line] === 1 || this.side.lost[place] > 0;
  }
}

// What a row did, as sentences with the kernel's functions.
class Step {
  constructor(row, line, told, before, after, sentences) {
    [, this.device, this.event, this.value] = row;
    Object.assign(this, { line, told, before, after, sentences, was: before.get(this.device), own: after.get(this.device), said: [] });
    if (this[this.event]) this[this.event]();
    else this.polls();
    for (const [each, { state }] of after) if (before.has(each) && before.get(each).state === 'pending' && state === 'off') this.say('completes', { each });
  }
  say(name, more = {}) {
    const values = { device: this.device, value: this.value, ...more };
    this.said.push(this.sentences.get(name).map(text => text.replace(/{(\w+)}/g, (_, key) => values[key])));
  }
  open() { this.say('open', { packets: countOf(this.value, 'packet') }); }
  rx() {
    const isDropped = this.own.dropped > this.was.dropped;
    this.say(isDropped ? 'dropped' : 'rx');
    if (isDropped) return;
    if (this.was.flags.includes('DISABLE')) this.say('refused');
    else if (this.was.state === 'off') this.say('off');
    else if (this.was.flags.includes('SCHED')) this.say('missed');
    else this.say('granted', { where: this.told.list.includes(this.device) ? 'at the tail of the poll list' : 'on its thread' });
  }
  tx() {
    const now = this.own.tx, was = this.was.tx || NO_QUEUE, isSent = now.in_flight !== was.in_flight;
    this.say(isSent ? 'tx' : 'unsent', now);
    if (isSent && now.stopped && !was.stopped) this.say('stopped');
  }
  done() {
    const now = this.own.tx, was = this.was.tx || NO_QUEUE;
    if (this.value && now.in_flight === was.in_flight) return this.say('too many');
    this.say('done', { ...now, packets: capital(countOf(this.value, 'packet')) });
    if (now.limit !== was.limit) this.say('limit', { was: was.limit, now: now.limit });
    if (was.stopped && !now.stopped) this.say('started');
  }
  disable() {
    this.say('disable');
    this.say(this.own.state === 'off' ? 'at once' : 'pending');
  }
  enable() { this.say('enable'); }
  threaded() { this.say('threaded', { by: this.value ? 'its thread' : 'softirq runs' }); }
  polls() {
    const { polls, work, squeezed } = this.line, reason = this.was && ({ off: 'disabled', pending: 'about to be disabled' }[this.was.state] || 'scheduled already');
    const who = POLLERS[this.event].replace('{}', this.device);
    this.say(polls ? 'polls' : this.event === 'busy' ? 'spins' : 'nothing', { rule: RULES[this.event], who, reason, polls: countOf(polls, 'poll'), packets: countOf(work, 'packet') });
    for (const [device, packets] of this.told.gave) this.polled(device, packets);
    if (squeezed === 1) this.say('squeezed');
  }
  polled(each, packets) {
    const was = this.before.get(each), now = this.after.get(each);
    if (packets) this.say('taken', { packets: capital(countOf(packets, 'packet')), each, left: now.left });
    if (was.flags.includes('MISSED') && !now.flags.includes('MISSED')) this.say('again', { each });
    if (!now.flags.includes('SCHED') || now.state === 'off') this.say(now.left ? 'given up' : 'idle', { each });
    if (this.told.list.includes(each) && packets) this.say('listed', { each });
  }
}

class StepsView {
  constructor(page, sentences) {
    this.page = page;
    this.sentences = new Map(sentences.split('\n').filter(line => line && line[0] !== '#').map(line => {
      const [name, rule, ...sentence] = line.split(': ');
      return [name, [sentence.join(': '), rule]];
    }));
    this.poll = [];
    this.timer = null;
    const slider = by('slider');
    slider.addEventListener('input', () => this.go(Number(slider.value)));
    for (const [id, act] of Object.entries({ back: () => this.go(this.here - 1), forth: () => this.go(this.here + 1), next: () => this.goToMark(1), play: () => this.timer ? this.pause() : this.play() }))
      by(id).addEventListener('click', act);
    by('pace').addEventListener('change', () => { if (this.timer) this.play(); });
    by('timeline').addEventListener('click', event => this.click(event));
    addEventListener('keydown', event => this.key(event));
    let from = null;
    by('sides').addEventListener('touchstart', event => { from = event.touches[0]; }, { passive: true });
    by('sides').addEventListener('touchend', event => {
      const [across, down] = [event.changedTouches[0].clientX - from.clientX, event.changedTouches[0].clientY - from.clientY];
      if (Math.abs(across) > 50 && Math.abs(across) > 2 * Math.abs(down)) this.go(this.here + (across < 0 ? 1 : -1));
    });
    for (const name in MEANINGS) by('flags').append(made('dt', '', name), made('dd', '', MEANINGS[name]));
  }
  take(sides, trace, at) {
    const rows = rowsOf(trace), capacities = new Map(rows.filter(([, , event]) => event === 'open').map(([, device, , value]) => [device, value]));
    this.rows = rows;
    this.sides = sides.filter(side => side.series).map(side => new Replayed(side, rows, capacities));
    const every = new Map(this.sides.flatMap(side => side.keys.map(key => [key.join('+'), key])));
    this.keys = [...every.values()].sort((one, other) => one[0] - other[0] || one[1] - other[1]);
    by('slider').max = this.keys.length;
    const [row, added] = String(at || 0).split(/[+ ]/).map(Number);
    const place = this.keys.findIndex(key => key[0] === row && key[1] === (added || 0));
    this.go(place + 1 || 0);
  }
  // `here` is 0 before the first row, and then the number of a key from 1.
  go(to) {
    this.poll = [];
    this.here = Math.max(0, Math.min(this.keys.length, to));
    by('slider').value = this.here;
    this.show();
  }
  goToMark(way) {
    let to = this.here + way;
    while (to > 0 && to <= this.keys.length && !this.isMarked(to)) to += way;
    if (to > 0 && to <= this.keys.length) this.go(to);
  }
  placeIn(side, here) { return here ? side.places.get(this.keys[here - 1].join('+')) : undefined; }
  isMarked(here) {
    return this.sides.some(side => {
      const place = this.placeIn(side, here);
      return place !== undefined && side.isMarked(place);
    });
  }
  at() { return this.here ? `${this.keys[this.here - 1][0]}${this.keys[this.here - 1][1] ? '+' + this.keys[this.here - 1][1] : ''}` : '0'; }
  show() {
    const [row, added] = this.here ? this.keys[this.here - 1] : [0, 0];
    by('place').textContent = `row ${row} of ${this.rows.length}${added ? `, added run ${added}` : ''}`;
    const [moment, device, event, value] = row ? this.rows[row - 1] : [];
    by('row').textContent = row ? `${moment} ms: ${added ? 'softirq' : event}${device && !added ? ` at device ${device}` : ''}${value && !added ? `, ${value}` : ''}` : 'before the first row';
    by('sides').replaceChildren(...this.sides.map((side, number) => this.sideOf(side, number)));
    this.drawTimeline();
    this.page.link();
  }
  // The place of a side at or before the current row, and whether the row is there.
  placeOf(side) {
    const own = this.placeIn(side, this.here);
    if (own !== undefined) return [own, true];
    for (let here = this.here; here > 0; here--) {
      const place = this.placeIn(side, here);
      if (place !== undefined) return [place, false];
    }
    return [-1, false];
  }
  sideOf(side, number) {
    const [place, isOwn] = this.placeOf(side), before = side.after(isOwn ? place - 1 : place), after = side.after(place);
    const section = made('section', 'side'), said = made('ul', 'said'), polls = isOwn ? side.pollsAt(place) : [];
    section.append(made('h2', 'settings', side.side.heading));
    for (const [sentence, rule] of this.saidOf(side, place, isOwn, before, after)) {
      const item = made('li', '', sentence);
      if (rule) item.append(' ', made('code', '', rule));
      said.append(item);
    }
    section.append(said);
    if (polls.length) section.append(this.tableOf(polls, number));
    const chosen = polls[this.poll[number]];
    const seen = chosen ? { devices: side.devicesAt(chosen.line), list: chosen.list } : after;
    section.append(made('p', 'after', chosen ? `After poll ${this.poll[number] + 1} of ${polls.length}:` : 'After the row:'), listOf(seen.list));
    const cards = made('div', 'devices'), first = chosen && this.poll[number] ? side.devicesAt(polls[this.poll[number] - 1].line) : before.devices;
    const isTouched = (device, told) => !first.has(device) || first.get(device).line !== told.line;
    const isQuiet = (device, told) => seen.devices.size > FEW_CARDS && !told.left && !told.flags.length && !isTouched(device, told);
    const quiet = [...seen.devices].filter(each => isQuiet(...each)).map(([device]) => device);
    for (const [device, told] of seen.devices) if (!isQuiet(device, told)) cards.append(cardOf(told, isTouched(device, told)));
    section.append(cards);
    if (quiet.length) section.append(made('p', 'quiet', `Idle, with an empty ring: device ${quiet.join(', ')}.`));
    return section;
  }
  saidOf(side, place, isOwn, before, after) {
    if (!this.here) return [['There is no device yet.', '']];
    if (!isOwn) return [['With these settings no run is added here.', '']];
    const line = side.series.rows[place], [row, added] = side.keys[place];
    const told = side.series.texts(line), values = { polls: side.series.polls[line], work: side.series.work[line], squeezed: side.series.squeezed[line] };
    return new Step(added ? [0, 0, 'softirq', 0] : this.rows[row - 1], values, told, before.devices, after.devices, this.sentences).said;
  }
  tableOf(polls, number) {
    const table = made('table', 'polls'), head = made('thead'), body = made('tbody');
    head.append(rowOf(['poll', 'device', 'packets', 'how it ended', 'budget left', 'window left'], 'th'));
    polls.forEach(({ cells, rule }, place) => {
      const row = rowOf(cells, 'td'), choose = () => { this.poll[number] = this.poll[number] === place ? undefined : place; this.show(); };
      row.tabIndex = 0;
      row.title = rule;
      if (this.poll[number] === place) row.className = 'chosen';
      row.addEventListener('click', choose);
      row.addEventListener('keydown', event => { if (event.key === 'Enter') choose(); });
      body.append(row);
    });
    table.append(head, body);
    const scroll = made('div', 'scroll');
    scroll.append(table);
    return scroll;
  }
  goToPoll(way) {
    this.sides.forEach((side, number) => {
      const [place, isOwn] = this.placeOf(side), count = isOwn ? side.pollsAt(place).length : 0;
      const next = (this.poll[number] ?? (way > 0 ? -1 : count)) + way;
      this.poll[number] = next < 0 || next >= count ? undefined : next;
    });
    this.show();
  }
  key(event) {
    if (this.page.view !== 'steps' || event.ctrlKey || event.altKey || event.metaKey || ['INPUT', 'SELECT', 'TEXTAREA'].includes(event.target.tagName) && event.target.id !== 'slider') return;
    const act = { ArrowLeft: () => this.go(this.here - 1), ArrowRight: () => this.go(this.here + 1), PageUp: () => this.go(this.here - 10), PageDown: () => this.go(this.here + 10), Home: () => this.go(0), End: () => this.go(this.keys.length), ArrowUp: () => this.goToPoll(-1), ArrowDown: () => this.goToPoll(1), n: () => this.goToMark(1), p: () => this.goToMark(-1), ' ': () => event.target.tagName === 'BUTTON' ? event.target.click() : by('play').click() }[event.key];
    if (!act) return;
    event.preventDefault();
    act();
  }
  pause() {
    clearInterval(this.timer);
    this.timer = null;
    by('play').textContent = '\u25b6';
    by('play').setAttribute('aria-label', 'play');
  }
  play() {
    if (this.here === this.keys.length) this.go(0);
    clearInterval(this.timer);
    this.timer = setInterval(() => this.here < this.keys.length ? this.go(this.here + 1) : this.pause(), 1000 / Number(by('pace').value));
    by('play').textContent = '\u275a\u275a';
    by('play').setAttribute('aria-label', 'pause');
  }
  // A click goes to the nearest mark if one is near, else to the row at this position.
  click(event) {
    const across = (event.offsetX - LEFT) / (by('timeline').clientWidth - LEFT - RIGHT) * this.keys.length, near = Math.max(12 / by('timeline').clientWidth * this.keys.length, 0.5);
    let best = Math.round(across);
    for (let far = 0; far <= near; far++)
      for (const here of [Math.round(across) - far, Math.round(across) + far])
        if (here > 0 && here <= this.keys.length && this.isMarked(here)) return this.go(here);
    this.go(best);
  }
  drawTimeline() {
    const pen = new CanvasPen(by('timeline')), tall = pen.high / Math.max(this.sides.length, 1), last = Math.max(this.keys.length, 1);
    pen.rect(0, 0, pen.wide, pen.high, 'page');
    this.sides.forEach(({ side, places }, number) => {
      const whole = this.keys.length === side.moments.length ? null : this.keys.map(key => places.get(key.join('+')));
      const at = Float64Array.from(side.moments, (_, place) => place + 1);
      if (whole) whole.forEach((place, key) => { if (place !== undefined) at[place] = key + 1; });
      const level = new Panel(pen, tall * number, tall - 2, [0, last], highestOf(side.waiting)), bars = new Panel(pen, tall * number, tall - 2, [0, last], highestOf(side.work));
      level.level(at, side.waiting, 'wait', true);
      bars.bars(at, side.work, 'fill');
      for (const [x] of bars.bars(at, side.red, 'bad')) pen.text(x, bars.top + 12, '\u25b2', 'bad', 'center');
      for (const [x] of [...new Panel(pen, 0, 1, [0, last], 1).bars(at, side.lost, 'page', 0)].slice(0, 400)) pen.text(x, bars.top + 12, '\u2715', 'lost', 'center');
    });
    const x = LEFT + this.here / last * (pen.wide - LEFT - RIGHT);
    pen.line([[x, 0], [x, pen.high]], 'text', 1.5);
    by('timeline').setAttribute('aria-label', `Timeline of ${this.keys.length} rows; the current one is ${this.at()}`);
  }
}

function listOf(list) {
  const line = made('p'), entries = made('span', 'list');
  entries.append(...(list.length ? list.map(device => made('span', 'chip listed', `device ${device}`)) : [made('small', '', 'empty')]));
  line.append(made('b', '', 'Poll list: '), entries);
  return line;
}

function rowOf(cells, kind) {
  const row = made('tr');
  row.append(...cells.map(text => made(kind, '', text)));
  return row;
}

function cardOf(device, isTouched) {
  const card = made('section', isTouched ? 'device touched' : 'device'), ring = made('div', 'ring'), flags = made('p', 'flags');
  const cells = Math.min(device.capacity, MOST_CELLS), full = Math.ceil(device.left * cells / device.capacity);
  for (let cell = 0; cell < cells; cell++) ring.append(made('i', cell < full ? 'full' : ''));
  for (const name of device.flags) {
    const chip = made('span', 'chip', name);
    chip.title = MEANINGS[name];
    flags.append(chip);
  }
  if (!device.flags.length) flags.append(made('small', '', 'no flag: idle'));
  card.append(made('h2', '', `device ${device.device}, ${device.state}`), made('p', 'waiting', `${device.left} of ${device.capacity} packets in the ring`), ring, flags);
  card.append(made('p', 'counts', `${device.arrived} arrived, ${device.polled} polled, ${device.dropped} dropped`));
  if (device.tx) {
    const { limit, in_flight: flight, avail, stopped } = device.tx, bar = made('div', flight > limit ? 'bar over' : 'bar'), filled = made('i');
    filled.style.width = 100 * Math.min(1, flight / Math.max(limit, flight, 1)) + '%';
    bar.append(filled);
    card.append(made('p', 'limit', `queue limit ${limit} bytes, ${flight} in flight, ${avail} free${stopped ? ', stopped' : ''}`), bar);
  }
  return card;
}
