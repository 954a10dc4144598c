// Tables of `fintaqush what-if`: waits and losses over the load, or over the option with the most values, with a curve for each combination of the others.
const LINES = ['fill', 'bad', 'used', 'lost', 'quiet', 'text'], NO_OPTIONS = ['version', 'tool', 'arrivals', 'sum', 'status', 'fault'];
const PANELS = [['99 % of the waits to the end of use are below', 'used_p99', timeOf], ['packets dropped or refused', 'lost', value => `${Number(value.toPrecision(3))} %`]];
const isTable = begin => /^[^\n]*,used_p99[,\n]/.test(begin) || /^\{"version": 1, "tool": "what-if"/.test(begin);

class Table {
  // Parses CSV, or the objects of --json, one per line.
  constructor(text) {
    const lines = text.trim().split(/\r?\n/), cells = line => [...line.matchAll(/(?:"((?:[^"]|"")*)"|([^,]*))(?:,|$)/g)].map(([, quoted, plain]) => quoted ?? plain);
    const names = cells(lines[0]), every = lines[0][0] === '{' ? lines.map(line => JSON.parse(line)) : lines.slice(1).map(line => Object.fromEntries(cells(line).slice(0, names.length).map((cell, place) => [names[place], cell])));
    const columns = Object.keys(every[0] || {}), options = columns.slice(0, Math.max(columns.indexOf('arrived'), 0)).filter(name => !NO_OPTIONS.includes(name));
    const rows = every.filter(row => Number(row.arrived) > 0).map(row => ({ ...row, lost: 100 * (Number(row.dropped) + Number(row.refused)) / Number(row.arrived) }));
    const counts = new Map(options.map(name => [name, new Set(rows.map(row => row[name])).size])), varied = options.filter(name => counts.get(name) > 1);
    this.axis = varied.includes('load') || !varied.length ? 'load' : varied.reduce((most, name) => counts.get(name) > counts.get(most) ? name : most);
    this.curves = new Map();
    for (const row of rows) {
      const name = varied.filter(each => each !== this.axis).map(each => `${each} ${row[each]}`).join(', ') || 'all';
      this.curves.set(name, [...this.curves.get(name) || [], { at: Number(row[this.axis] ?? 1), ...row }].sort((one, other) => one.at - other.at));
    }
    if (!rows.length) throw new Error('none of its rows has packets');
    if (this.curves.size > LINES.length) throw new Error(`${this.curves.size} curves, of which at most ${LINES.length} can be told apart: vary fewer options at a time`);
  }
  // The combination with the lowest waits at the end of the axis, of those that lose nothing there.
  told() {
    const last = [...this.curves].map(([name, rows]) => [name, rows.at(-1)]), good = last.filter(([, row]) => !row.lost).sort(([, one], [, other]) => one.used_p99 - other.used_p99);
    const end = `At ${this.axis} ${Math.max(...last.map(([, row]) => row.at))}`;
    return good.length ? `${end} the lowest 99th percentile without losses is that of ${good[0][0]}: ${timeOf(Number(good[0][1].used_p99))}.` : `${end} each combination loses packets.`;
  }
  drawBy(pen) {
    const every = [...this.curves.values()].flat(), ends = [Math.min(...every.map(row => row.at)), Math.max(...every.map(row => row.at))];
    if (ends[0] === ends[1]) ends[1]++;
    pen.rect(0, 0, pen.wide, pen.high, 'page');
    PANELS.forEach(([title, column, print], number) => {
      const most = Math.max(...every.map(row => Number(row[column]))), panel = new Panel(pen, 4 + number * 160, 130, ends, most || 1), step = stepOf(panel.most, 4);
      for (let value = 0; value <= panel.most; value += step) {
        pen.rect(LEFT, panel.y(value), panel.room, 0.6, 'line');
        pen.text(LEFT - 6, panel.y(value) + 4, print(value), 'quiet', 'right');
      }
      pen.text(LEFT, panel.top + 12, title, 'text');
      [...this.curves.values()].forEach((rows, place) => {
        const points = rows.map(row => [panel.x(row.at), panel.y(Number(row[column]))]);
        pen.line(points, LINES[place], 2, place % 2 ? [6, 4] : []);
        for (const [x, y] of points) pen.rect(x - 3, y - 3, 6, 6, LINES[place]);
      });
      if (number) panel.times(this.axis === 'load' ? 'load, times the arrivals' : this.axis);
    });
    let [x, y] = [8, 350];
    [...this.curves.keys()].forEach((name, place) => {
      if (x > 8 && x + 24 + 7 * name.length > pen.wide) [x, y] = [8, y + 18];
      pen.line([[x, y - 4], [x + 16, y - 4]], LINES[place], 3, place % 2 ? [6, 4] : []);
      pen.text(x + 22, y, name, 'text');
      x += 40 + 7 * name.length;
    });
  }
  height() { return 360 + 18 * this.curves.size; }
  rows() {
    const head = [this.axis, 'combination', '99 % of waits', 'lost'];
    return [head, ...[...this.curves].flatMap(([name, rows]) => rows.map(row => [row.at, name, timeOf(Number(row.used_p99)), `${Number(row.lost.toPrecision(3))} %`]))];
  }
}
