// The series of a replay (napi_series), and the trace that it belongs to, as arrays. A line of the series is a row of the trace, or with
// --polls a poll of the next row. What isn't there is NaN.
const NUMBERS = { moment: 1, device: 2, waiting: 4, arrived: 5, dropped: 6, polled: 7, in_flight: 8, limit: 9, avail: 10, stopped: 11, polls: 12, work: 13, squeezed: 14, word: 15 };
const COMMA = 44, LINE = 10, DOT = 46, MINUS = 45;

class Series {
  constructor(bytes) {
    this.bytes = bytes;
    let count = -1; // without the head
    for (const byte of bytes) if (byte === LINE) count++;
    this.count = count;
    this.starts = new Uint32Array(count + 1);
    this.row = new Int32Array(count); // its number
    this.poll = new Int32Array(count); // 0, or the number of the poll of the row
    for (const name in NUMBERS) this[name] = new Float64Array(count);
    const columns = [];
    for (const name in NUMBERS) columns[NUMBERS[name]] = this[name];
    let at = bytes.indexOf(LINE) + 1;
    for (let line = 0; line < count; line++) at = this.read(line, at, columns);
    this.starts[count] = bytes.length;
    let rows = 0;
    this.rows = new Int32Array(count);
    for (let line = 0; line < count; line++) if (!this.poll[line]) this.rows[rows++] = line;
    this.rows = this.rows.slice(0, rows);
  }
  read(line, at, columns) {
    const { bytes } = this;
    this.starts[line] = at;
    for (let column = 0, byte = 0; byte !== LINE; column++) {
      let value = 0, is = false, sign = 1;
      for (byte = bytes[at++]; byte !== COMMA && byte !== LINE; byte = bytes[at++]) {
        if (byte === DOT) { this.row[line] = value; value = 0; }
        else if (byte === MINUS) sign = -1;
        else { value = value * 10 + byte - 48; is = true; }
      }
      if (columns[column]) columns[column][line] = is ? sign * value : NaN;
      else if (column === 0 && this.row[line]) this.poll[line] = value;
      else if (column === 0) this.row[line] = value;
    }
    return at;
  }
  // Returns the fields of a line that aren't numbers.
  texts(line) {
    const fields = String.fromCharCode(...this.bytes.subarray(this.starts[line], this.starts[line + 1] - 1)).split(',');
    const numbers = text => text.split(' ').filter(Boolean);
    const gave = numbers(fields[17]).map(pair => pair.split(':').map(Number));
    return { state: fields[3], list: numbers(fields[16]).map(Number), gave: new Map(gave), ended: fields[18] || '' };
  }
}

// The rows of a trace that a program accepted: [moment, device, event, value].
function rowsOf(bytes) {
  const text = new TextDecoder().decode(bytes).replace(/^\ufeff/, '');
  const records = text.split(/[\r\n]+/).filter(Boolean).slice(1).map(line => line.replace(/"/g, '').split(','));
  return records.map(([moment, device, event, value]) => [Number(moment), Number(device), event, Number(value)]);
}

// For each row of a series with added runs: the number of the trace's row that it belongs to, and 0 or the number of the added run.
function keysOf(series, rows) {
  let place = 0, added = 0;
  return Array.from(series.rows, line => {
    const isOwn = place < rows.length && series.moment[line] === rows[place][0] && series.device[line] === rows[place][1];
    [place, added] = isOwn ? [place + 1, 0] : [place, added + 1];
    return [place, added];
  });
}

// What waits in all rings after each row, and how many packets each row dropped.
function levelsOf(series) {
  const taken = new Float64Array(17), gone = new Float64Array(17);
  const waiting = new Float64Array(series.rows.length), lost = new Float64Array(series.rows.length);
  let sum = 0;
  series.rows.forEach((line, place) => {
    const device = series.device[line], work = series.work[line];
    if (device) {
      const into = series.arrived[line] - series.dropped[line];
      sum += into - taken[device];
      lost[place] = series.dropped[line] - gone[device];
      [taken[device], gone[device]] = [into, series.dropped[line]];
    }
    if (work) sum -= work;
    waiting[place] = sum;
  });
  return { waiting, lost };
}
