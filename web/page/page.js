// The page: what is shown, of which input, with which settings; the worker that runs the programs; links and files.
const by = id => document.getElementById(id);
const textOf = bytes => new TextDecoder().decode(bytes);
const VIEWS = ['replay', 'steps', 'machine'], MOST_BYTES = 2 ** 30;

// Returns an element with a text, which is never parsed as HTML.
function made(kind, name, text) {
  const element = document.createElement(kind);
  if (name) element.className = name;
  if (text !== undefined) element.textContent = text;
  return element;
}

const bytesOf = text => Uint8Array.from(atob(text), letter => letter.charCodeAt(0));
async function unpacked(bytes) {
  const parts = [];
  let size = 0;
  for (const reader = new Blob([bytes]).stream().pipeThrough(new DecompressionStream('gzip')).getReader(); ;) {
    const { done, value } = await reader.read();
    if (done) return new Uint8Array(await new Blob(parts).arrayBuffer());
    size += parts[parts.push(value) - 1].length;
    if (size > MOST_BYTES) throw new Error(`it unpacks to more than ${grouped(MOST_BYTES)} bytes`);
  }
}

// A slider of 0 to 100 goes from 1 to 65535, by equal factors.
const MAX_BUDGET = 65535;
const budgetOf = place => Math.max(1, Math.round(MAX_BUDGET ** (Number(place) / 100)));
const placeOf = budget => Math.log(budget) / Math.log(MAX_BUDGET) * 100;

// Whether a file is of fintaqush record, or the text of ftrace, of trace-cmd or of perf.
const isRecording = begin => /^(fintaqush-recording |# |cpus=\d|version = )/.test(begin) || /^\s*\S[^\n]*\s\[\d+\]\s[^\n]*\d\.\d{6,9}: /.test(begin);

class Page {
  constructor({ module, examples, options, sentences, known, own }) {
    Object.assign(this, { examples, known, own, view: 'replay', asked: new Map(), number: 0, isNew: true });
    this.replay = new ReplayView(this);
    this.steps = new StepsView(this, sentences);
    this.machine = new MachineView(this, options);
    this.ready = this.open(module);
    if (own) by('example').append(new Option(own.name, 'own'));
    for (const name of Object.keys(examples)) by('example').append(new Option(name));
    this.listen();
  }
  async open(packed) {
    const worker = by('host').textContent + by('series').textContent + 'self.shaped = (result, { program, words }) => program === "napi_series" && !words.includes("--rows") && !result.status ? { ...result, series: { ...new Series(result.out) } } : result;';
    this.worker = new Worker(URL.createObjectURL(new Blob([worker], { type: 'text/javascript' })));
    this.worker.onmessage = ({ data: { number, results, error } }) => {
      const { good, bad } = this.asked.get(number);
      this.asked.delete(number);
      if (error) bad(new Error(error));
      else good(results);
    };
    this.worker.postMessage({ module: await unpacked(bytesOf(packed)) });
  }
  // Runs programs on an input, and returns their results.
  async ask(input, runs) {
    await this.ready;
    return new Promise((good, bad) => {
      this.asked.set(++this.number, { good, bad });
      this.worker.postMessage({ number: this.number, input, runs });
    });
  }

  listen() {
    for (const view of VIEWS) by(`to_${view}`).addEventListener('click', () => this.show(view));
    by('example').addEventListener('change', () => this.takeExample(by('example').value));
    for (const id of ['budget', 'weight', 'budget2', 'weight2', 'raise', 'beside']) by(id).addEventListener('input', () => this.run());
    by('file').addEventListener('change', event => this.takeFile(event.target.files[0]));
    addEventListener('dragover', event => { event.preventDefault(); document.body.classList.add('over'); });
    addEventListener('dragleave', () => document.body.classList.remove('over'));
    addEventListener('drop', event => { event.preventDefault(); document.body.classList.remove('over'); this.takeFile(event.dataTransfer.files[0]); });
    addEventListener('resize', () => this.draw());
    matchMedia('(prefers-color-scheme: dark)').addEventListener('change', () => this.draw());
    addEventListener('beforeprint', () => this.draw());
    addEventListener('hashchange', () => { if (location.hash !== this.hash) this.goToLink(); });
    const saves = { save_csv: () => ['csv', 'text/csv', this.replay.csv()], save_svg: () => ['svg', 'image/svg+xml', this.picture()], save_report: () => ['txt', 'text/plain', by('report').textContent] };
    for (const [id, make] of Object.entries(saves)) by(id).addEventListener('click', () => { const [end, type, text] = make(); this.save(end, new Blob([text], { type })); });
    by('save_png').addEventListener('click', () => by(this.view === 'machine' ? 'waits' : 'chart').toBlob(blob => this.save('png', blob)));
    by('copy').addEventListener('click', () => navigator.clipboard?.writeText(location.href));
  }
  picture() {
    if (this.view !== 'machine') return this.replay.svg();
    const picture = this.machine.table || this.machine, pen = new SvgPen(900, this.machine.table ? picture.height() : 350, picture.told());
    picture.drawBy(pen);
    return pen.whole();
  }
  save(end, blob) {
    const link = made('a');
    link.href = URL.createObjectURL(blob);
    link.download = `${(this.name || 'fintaqush').replace(/[^\w.-]/g, '_')}.${end}`;
    link.click();
  }

  // Shows a view.
  show(view) {
    this.view = view;
    for (const each of VIEWS) {
      by(`view_${each}`).hidden = each !== view;
      by(`to_${each}`).setAttribute('aria-pressed', each === view);
    }
    by('of_trace').hidden = by('told').hidden = view === 'machine';
    this.draw();
    if (view === 'steps' && this.trace && !this.hasSteps) this.run();
    if (view === 'machine') { this.machine.tell(); this.machine.run(); }
    this.link();
  }
  draw() {
    if (this.view === 'replay') this.replay.draw();
    else if (this.view === 'steps' && this.hasSteps) this.steps.show();
    else if (this.view === 'machine') this.machine.draw();
  }

  async takeExample(name) {
    const bytes = name === 'own' ? await unpacked(bytesOf(this.own.trace)) : await unpacked(bytesOf(this.examples[name]));
    await this.take(bytes, name === 'own' ? this.own.name : name);
  }
  // Returns a trace of a recording, or arrivals, and notes on it, by a worker that ends with that.
  async converted(bytes, isArrivals) {
    const code = `const KNOWN = ${JSON.stringify(this.known)};\n${by('recording').textContent}`, url = URL.createObjectURL(new Blob([code], { type: 'text/javascript' })), worker = new Worker(url);
    try {
      return await new Promise((good, bad) => {
        worker.onmessage = ({ data: { made, error } }) => made ? good(made) : bad(new Error(error));
        worker.onerror = event => bad(new Error(event.message));
        worker.postMessage({ bytes, isArrivals });
      });
    } finally {
      worker.terminate();
      URL.revokeObjectURL(url);
    }
  }
  // Takes a file: a trace, arrivals, a capture or a recording, also packed by gzip.
  async takeFile(file) {
    if (!file) return;
    this.note = '';
    try {
      let bytes = new Uint8Array(await file.arrayBuffer());
      if (bytes[0] === 0x1f && bytes[1] === 0x8b) bytes = await unpacked(bytes);
      const begin = textOf(bytes.subarray(0, 2000));
      if (isRecording(begin)) {
        const [text, notes] = await this.converted(bytes, this.view === 'machine');
        this.note = `As \`fintaqush from-ftrace\` converts it: ${notes.join('; ')}. `;
        if (this.view === 'machine') return await this.machine.take(text, file.name, this.note);
        return await this.take(text, file.name);
      }
      if (isCapture(bytes)) {
        const arrivals = arrivalsOf(bytes);
        this.note = 'Each packet of the capture counts as an arrival at one device, and a run begins 1 ms after the first packet that waits; fintaqush from-pcap has options for that. ';
        if (this.view === 'machine') return await this.machine.take(arrivalsText(arrivals), file.name);
        return await this.take(traceOf(arrivals), file.name);
      }
      if (/^\ufeff?"?(ns|moment)"?,"?device"?,"?bytes/.test(begin)) {
        this.show('machine');
        return await this.machine.take(bytes, file.name);
      }
      if (isTable(begin)) {
        this.show('machine');
        await this.machine.running;
        return this.machine.takeTable(textOf(bytes), file.name);
      }
      await this.take(bytes, file.name);
    } catch (error) {
      this.tell(`${file.name}: ${error.message}`, true);
      if (this.view === 'machine') [by('predicted').textContent, by('predicted').className] = [`${file.name}: ${error.message}`, 'bad'];
    }
  }
  async take(trace, name) {
    Object.assign(this, { trace, name, isNew: true, hasSteps: false });
    await this.run();
    if (this.note) by('told').prepend(this.note);
    this.note = '';
  }
  tell(text, isBad) {
    by('sum').textContent = text;
    by('sum').className = isBad ? 'bad' : '';
  }

  settings() {
    const of = end => ({ budget: budgetOf(by(`budget${end}`).value), weight: Number(by(`weight${end}`).value), window: this.own?.sides[end ? 1 : 0]?.window ?? 1024 });
    for (const end of ['', '2']) {
      by(`budget${end}_is`).value = of(end).budget;
      by(`weight${end}_is`).value = of(end).weight;
    }
    by('second').hidden = !by('beside').checked;
    return by('beside').checked ? [of(''), of('2')] : [of('')];
  }
  // Replays the trace with the current settings, and once more if they change meanwhile. Ends when what is shown is theirs.
  run() {
    this.settings();
    this.isLate = Boolean(this.trace);
    return this.running ||= this.replayAll().finally(() => { this.running = null; });
  }
  // Ends when nothing is computed any more.
  async settled() { await Promise.all([this.running, this.machine.running]); }
  async replayAll() {
    while (this.isLate) {
      this.isLate = false;
      const since = performance.now(), { trace } = this;
      try {
        const polls = this.view === 'steps' ? ['--polls'] : [], sides = await Promise.all(this.settings().map(settings => this.replayed(trace, settings, polls)));
        this.took = performance.now() - since;
        if (trace === this.trace) this.taken(sides, polls.length > 0);
      } catch (error) {
        this.tell(String(error.message || error), true);
      }
    }
  }
  async replayed(trace, settings, polls) {
    const words = Object.entries(settings).map(([name, value]) => `--${name}=${value}`), isRaised = by('raise').checked, more = isRaised ? ['--raise', ...polls] : polls;
    const [series, rows] = await this.ask(trace, [{ program: 'napi_series', words: [...more, ...words] }, { program: 'napi_series', words: ['--rows', '--raise', ...words] }].slice(0, 1 + isRaised));
    const heading = `budget ${settings.budget}, weight ${settings.weight}${isRaised ? ', with added runs' : ''}`;
    if (series.status) return { ...settings, heading, fault: `${heading}: ${textOf(series.said).trim()}` };
    const [report] = await this.ask(isRaised ? rows.out : trace, [{ program: 'napi_serial', words }]);
    const text = textOf(report.out), [, devices, runs, count, work, squeezed] = text.match(/^total devices (\d+) runs (\d+) polls (\d+) work (\d+) squeezed (\d+)$/m);
    const dropped = [...text.matchAll(/ dropped (\d+) /g)].reduce((sum, [, value]) => sum + Number(value), 0);
    const sum = `${squeezed} of ${runs} runs squeezed, ${count} polls took ${work} packets of ${devices} devices, ${dropped} dropped`;
    return { ...settings, heading, sum, report: text, series: Object.setPrototypeOf(series.series, Series.prototype) };
  }
  taken(sides, hasPolls) {
    const bad = sides.find(side => side.fault);
    this.tell(sides.map(side => side.fault || (sides.length > 1 ? `${side.heading}: ${side.sum}` : side.sum)).join('; '), Boolean(bad));
    by('report').textContent = sides.map(side => (sides.length > 1 ? `# ${side.heading}\n` : '') + (side.report || `${side.fault}\n`)).join('');
    if (this.isNew) this.replay.span = this.zoomed || null;
    this.replay.take(sides);
    this.hasSteps = hasPolls && !bad;
    if (this.isNew) [this.at, this.row, this.zoomed, this.isNew] = [this.row, null, null, false];
    if (this.hasSteps) this.steps.take(this.replay.sides, this.trace, this.at);
    by('told').textContent = `A trace of ${grouped(this.trace.length)} bytes, replayed in ${this.took.toFixed(0)} ms.`;
    this.link();
  }

  // Keeps what is shown in the address, for a link.
  link() {
    const asked = { view: this.view };
    if (this.view === 'machine') {
      const { today, moved, costs } = this.machine;
      Object.assign(asked, { shape: by('shape').value, rate: by('rate').value, burst: by('burst').value, today: JSON.stringify(today), moved: JSON.stringify(moved), costs: JSON.stringify(costs) });
    } else {
      const [one, two] = this.settings();
      Object.assign(asked, { example: by('example').value, budget: one.budget, weight: one.weight }, by('raise').checked && { raise: 1 }, two && { budget2: two.budget, weight2: two.weight });
      if (this.view === 'steps' && this.hasSteps) asked.row = this.at = this.steps.at();
      if (this.view === 'replay' && this.replay.span && this.replay.span[1] - this.replay.span[0] < this.replay.whole[1] - this.replay.whole[0]) [asked.from, asked.to] = [Math.floor(this.replay.span[0]), Math.ceil(this.replay.span[1])];
    }
    this.hash = '#' + new URLSearchParams(asked);
    clearTimeout(this.linking);
    this.linking = setTimeout(() => history.replaceState(null, '', this.hash), 200);
  }
  async goToLink() {
    const asked = new URLSearchParams(location.hash.slice(1)), of = (name, usual) => asked.get(name) ?? usual;
    const [one, two] = location.hash.length > 1 || !this.own ? [{}, null] : this.own.sides;
    by('budget').value = placeOf(Number(of('budget', one.budget ?? 300)));
    by('weight').value = of('weight', one.weight ?? 64);
    by('raise').checked = of('raise', this.own?.raised ? '1' : '') === '1';
    by('beside').checked = Boolean(two || asked.get('budget2'));
    [by('budget2').value, by('weight2').value] = [placeOf(Number(of('budget2', two?.budget ?? 300))), of('weight2', two?.weight ?? 64)];
    this.row = of('row', this.own?.row ?? null);
    const [from, to] = ['from', 'to'].map(name => Number(asked.get(name)));
    this.zoomed = to > from ? [from, to] : null;
    for (const name of ['shape', 'rate', 'burst']) if (asked.get(name)) by(name).value = asked.get(name);
    for (const name of ['today', 'moved', 'costs']) try { this.machine[name] = Object(JSON.parse(of(name, '{}'))); } catch { /* a link that was cut */ }
    if (Object.hasOwn(SHOWN, asked.get('show'))) {
      by('shown').value = asked.get('show');
      this.machine.showOne(SHOWN[asked.get('show')]);
    }
    const names = [...by('example').options].map(option => option.value), name = of('example', names[0]);
    by('example').value = names.includes(name) ? name : names[0];
    this.show(VIEWS.includes(asked.get('view')) ? asked.get('view') : this.own?.view || 'replay');
    await this.takeExample(by('example').value);
  }
}
