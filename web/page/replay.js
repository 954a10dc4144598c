// The view of a replay: its runs, the packets that wait, drops and queue limits on one time axis, for one or two settings.
const PANEL = 150;

class ReplayView {
  constructor(page) {
    Object.assign(this, { page, span: null, whole: [0, 1] });
    const canvas = by('chart');
    canvas.addEventListener('wheel', event => {
      event.preventDefault();
      this.zoom(event.deltaY > 0 ? 1.25 : 0.8, this.momentAt(event));
    }, { passive: false });
    canvas.addEventListener('pointermove', event => event.buttons ? this.drag(event) : this.hover(event));
    canvas.addEventListener('pointerdown', event => { this.grabbed = { x: event.clientX, span: this.span }; });
    canvas.addEventListener('pointerleave', () => { by('hover').textContent = ''; });
    canvas.addEventListener('dblclick', () => this.zoomTo(this.whole));
    canvas.addEventListener('keydown', event => {
      const act = { '+': () => this.zoom(0.6), '-': () => this.zoom(1 / 0.6), ArrowLeft: () => this.move(-0.2), ArrowRight: () => this.move(0.2), 0: () => this.zoomTo(this.whole) }[event.key];
      if (act) { event.preventDefault(); act(); }
    });
    for (const [id, act] of Object.entries({ in: () => this.zoom(0.6), out: () => this.zoom(1 / 0.6), left: () => this.move(-0.3), right: () => this.move(0.3), all: () => this.zoomTo(this.whole) }))
      by(id).addEventListener('click', act);
    by('device').addEventListener('change', () => this.draw());
  }

  // Takes the results of one or two replays of a trace.
  take(sides) {
    this.sides = sides.map(side => side.series ? { ...side, ...this.curvesOf(side) } : side);
    const good = this.sides.filter(side => side.series && side.moments.length);
    this.whole = good.length ? [Math.min(...good.map(side => side.first)), Math.max(...good.map(side => side.last))] : [0, 1];
    if (this.whole[1] <= this.whole[0]) this.whole[1] = this.whole[0] + 1;
    if (!this.span || this.span[0] >= this.whole[1] || this.span[1] <= this.whole[0]) this.span = this.whole;
    this.tellDevices(good);
    this.draw();
  }
  curvesOf({ series }) {
    const moments = Float64Array.from(series.rows, line => series.moment[line]);
    const of = (name, from = series[name]) => Float64Array.from(series.rows, line => from[line]);
    let first = Infinity, last = -Infinity;
    for (const moment of moments) { first = Math.min(first, moment); last = Math.max(last, moment); }
    const work = of('work'), squeezed = of('squeezed');
    return { moments, first, last, work, red: work.map((value, place) => squeezed[place] === 1 ? value : NaN), ...levelsOf(series), device: of('device'), limit: of('limit'), flight: of('in_flight') };
  }
  tellDevices(sides) {
    const devices = [...new Set(sides.flatMap(side => [...side.device.filter((_, place) => !Number.isNaN(side.limit[place]))]))].sort((one, other) => one - other);
    const chosen = by('device').value;
    by('device').replaceChildren(...devices.map(device => new Option(`device ${device}`, device)));
    if (devices.map(String).includes(chosen)) by('device').value = chosen;
    by('of_device').hidden = !devices.length;
  }

  momentAt(event) {
    const canvas = by('chart'), share = (event.offsetX - LEFT) / (canvas.clientWidth - LEFT - RIGHT);
    return this.span[0] + share * (this.span[1] - this.span[0]);
  }
  zoomTo([from, to]) {
    const [low, high] = this.whole, span = Math.min(Math.max(to - from, (high - low) / 1e5), high - low);
    const begin = Math.min(Math.max(low, from), high - span);
    this.span = [begin, begin + span];
    this.draw();
    this.page.link();
  }
  zoom(factor, at = (this.span[0] + this.span[1]) / 2) { this.zoomTo([at - (at - this.span[0]) * factor, at + (this.span[1] - at) * factor]); }
  move(share) {
    const span = this.span[1] - this.span[0];
    this.zoomTo([this.span[0] + share * span, this.span[1] + share * span]);
  }
  drag(event) {
    if (!this.grabbed) return;
    const [from, to] = this.grabbed.span, way = (this.grabbed.x - event.clientX) / (by('chart').clientWidth - LEFT - RIGHT) * (to - from);
    this.zoomTo([from + way, to + way]);
  }

  // Prints what was at the moment below the pointer.
  hover(event) {
    const moment = this.momentAt(event);
    by('hover').textContent = this.sides.filter(side => side.series).map(side => {
      let place = lowerBound(side.moments, moment);
      if (place >= side.moments.length || place && moment - side.moments[place - 1] < side.moments[place] - moment) place--;
      const line = side.series.rows[place];
      let run = place;
      while (run >= 0 && Number.isNaN(side.work[run])) run--;
      const last = run < 0 ? '' : `, last run ${grouped(side.work[run])} packets${side.red[run] >= 0 ? ', squeezed' : ''} at ${grouped(side.moments[run])} ms`;
      return `row ${side.series.row[line]} at ${grouped(side.moments[place])} ms: ${grouped(side.waiting[place])} wait${last}`;
    }).join(' | ');
  }

  // What there is to show: of all sides the highest work and the most packets that wait, and whether a queue has a limit.
  kinds() {
    const most = name => Math.max(0, ...this.sides.filter(side => side.series).map(side => highestOf(side[name])));
    return { work: most('work'), waiting: most('waiting') || most('lost'), isLimited: !by('of_device').hidden };
  }
  height() {
    const { work, waiting, isLimited } = this.kinds();
    return Math.max(1, (work > 0) + (waiting > 0) + isLimited) * (PANEL + 18) * this.sides.length + 24;
  }
  draw() {
    if (!this.sides) return;
    by('chart').style.height = this.height() + 'px';
    this.drawBy(new CanvasPen(by('chart')));
    by('chart').setAttribute('aria-label', this.told());
    by('chart_text').textContent = this.told();
  }
  told() {
    return this.sides.map(side => side.fault || `${side.heading}: ${side.sum}; the runs took up to ${grouped(highestOf(side.work))} packets, and up to ${grouped(highestOf(side.waiting))} packets waited.`).join(' ');
  }
  drawBy(pen) {
    const kinds = this.kinds(), device = Number(by('device').value);
    let top = 4;
    pen.rect(0, 0, pen.wide, pen.high, 'page');
    const next = (most, title, unit) => {
      const panel = new Panel(pen, top, PANEL, this.span, most);
      panel.frame(title, unit);
      top += PANEL + 18;
      return panel;
    };
    let panel;
    for (const side of this.sides) {
      if (!side.series) { pen.text(LEFT, top + 40, side.fault, 'bad'); top += PANEL; continue; }
      if (kinds.work) this.drawWork(panel = next(kinds.work, `${side.heading}: packets of each run`, pen.wide > 800 ? side.sum : ''), side);
      if (kinds.waiting) this.drawWaiting(panel = next(kinds.waiting, 'packets that wait in all rings, and \u2715 drops', ''), side);
      if (!kinds.isLimited) continue;
      const [limit, flight] = ['limit', 'flight'].map(name => side[name].map((value, place) => side.device[place] === device ? value : NaN));
      panel = next(Math.max(highestOf(limit), highestOf(flight)), `${side.heading}: limit (line) and bytes in flight of device ${device}`, 'bytes');
      panel.level(side.moments, flight, 'wait', true);
      panel.level(side.moments, limit, 'fill', false);
    }
    if (panel) panel.times('ms');
    else pen.text(LEFT, 40, 'There is no run and no transmit queue in this trace.', 'text');
  }
  drawWork(panel, side) {
    const { pen } = panel;
    panel.bars(side.moments, side.work, 'fill');
    const marked = panel.bars(side.moments, side.red, 'bad');
    for (const [x, value] of marked.size > 400 ? [] : marked) pen.text(x, panel.y(value) - 2, '\u25b2', 'bad', 'center');
    if (side.budget < panel.most) pen.line([[LEFT, panel.y(side.budget)], [LEFT + panel.room, panel.y(side.budget)]], 'text', 1, [5, 4]);
  }
  drawWaiting(panel, side) {
    panel.level(side.moments, side.waiting, 'wait', true);
    const lost = panel.bars(side.moments, side.lost, 'lost', 1);
    for (const [x] of lost.size > 400 ? [] : lost) panel.pen.text(x, panel.top + HEAD + 4, '\u2715', 'lost', 'center');
  }

  // The curves as CSV.
  csv() {
    const names = ['settings', 'row', 'moment', 'work', 'squeezed', 'waiting', 'dropped'];
    const lines = this.sides.filter(side => side.series).flatMap(side => Array.from(side.moments, (moment, place) => [
      `"${side.heading}"`, side.series.row[side.series.rows[place]], moment, Number.isNaN(side.work[place]) ? '' : side.work[place],
      Number.isNaN(side.work[place]) ? '' : side.red[place] >= 0 ? 1 : 0, side.waiting[place], side.lost[place]].join(',')));
    return [names.join(','), ...lines].join('\n') + '\n';
  }
  svg() {
    const pen = new SvgPen(1100, this.height(), this.told());
    this.drawBy(pen);
    return pen.whole();
  }
}

function highestOf(values) {
  let most = 0;
  for (const value of values) if (value > most) most = value;
  return most;
}

// The first place whose value is at least this one.
function lowerBound(values, wanted) {
  let [from, to] = [0, values.length];
  while (from < to) {
    const middle = (from + to) >> 1;
    if (values[middle] < wanted) from = middle + 1;
    else to = middle;
  }
  return from;
}
