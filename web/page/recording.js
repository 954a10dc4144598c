// Reads recordings, and makes a trace or arrivals of them, as `fintaqush from-ftrace` does without options: files of fintaqush record, whose events are
// in the kernel's pages or as text, and texts of ftrace, trace-cmd and perf. It runs in a worker of its own. `KNOWN` is what the tools know of
// recordings (scripts/page.py): the patterns of the events' texts, and the forms of a head's values. Times are in ns after the first one.
const HEAD = 'fintaqush-recording ', BODIES = { 1: 'trace', 2: 'pages' }, CAPACITY = 256, MOST_ROWS = 100000, TICK = 1e6;
const MOST_PAGE = 2 ** 20, MOST_LINE = 4096, MOST_SPAN = 2 ** 52, AT_ONCE = 64;
const PADDING = 29, EXTEND = 30, STAMP = 31, SOON = 50000, LINK_HEADER = 14, MOST_PACKET = 65535, NET_RX = 3;
const BY_PAIR = 'net_dev_xmit', BY_POLL = 'napi_gro_receive_entry', BY_STACK = 'netif_receive_skb';
const KINDS = { [BY_PAIR]: BY_PAIR, [BY_POLL]: BY_POLL, napi_gro_frags_entry: BY_POLL, [BY_STACK]: BY_STACK };
const SENT = ['0', '0x0'], DROPPED = ['1', '0x1']; // net_dev_xmit's codes
const TAKEN_BY = { [BY_PAIR]: 'sent', [BY_POLL]: 'taken', [BY_STACK]: 'received' };
const fail = why => { throw new Error(why); };
const decoded = bytes => new TextDecoder('utf-8', { ignoreBOM: true }).decode(bytes);
const worded = text => (text || '').split(/\s+/).filter(Boolean);
const pairsIn = head => worded(head.version ? head.pair : 'va*:vb*');
const listed = names => [...names].sort().join(', ');

// Returns a text that can be printed: what isn't printable is escaped, as Python does.
const NAMED = { 9: '\\t', 10: '\\n', 13: '\\r' };
const escaped = letter => Array.from(new TextEncoder().encode(letter), byte => NAMED[byte] || '\\x' + byte.toString(16).padStart(2, '0')).join('');
const shown = text => text.replace(/[\p{C}\p{Z}]/gu, letter => letter === ' ' ? letter : escaped(letter));

// Returns the version of a file of fintaqush record, its head, and where its events begin.
function headIn(bytes) {
  const begin = decoded(bytes.subarray(0, 100)), first = begin.split('\n')[0].trimEnd(), version = first.slice(HEAD.length), head = Object.create(null);
  if (!begin.startsWith(HEAD)) return [null, head, 0];
  if (!Object.hasOwn(BODIES, version)) fail(`'${shown(first.slice(0, 60))}': another version of fintaqush record wrote it; this one reads versions 1 and 2`);
  for (let at = bytes.indexOf(10) + 1, end; (end = bytes.indexOf(10, at)) >= 0 && at; at = end + 1) {
    const line = decoded(bytes.subarray(at, end)), [key] = line.split(' ', 1);
    if (line === BODIES[version]) return [version, checked(head), end + 1, Object.keys(head).length];
    head[key] = line.slice(key.length + 1);
  }
  return fail('it is cut: its head has no end');
}

// Fails if a value has a form that fintaqush record never writes.
function checked(head) {
  for (const [key, form] of Object.entries(KNOWN.forms))
    if (head[key] && !new RegExp(`^(?:${form})$`).test(head[key])) fail(`its head has ${key} '${shown(head[key]).slice(0, 40)}', which fintaqush record never writes`);
  return head;
}

// ---- events in pages of the kernel's ring buffer

// The format of an event: its name, where its fields are, and what ftrace's text says of them.
class Format {
  constructor(text) {
    const [name, ...words] = text.split(' '), found = words.map(word => word.match(/^(\w{1,40}):(\d{1,5}):(\d{1,3}):([ustl])$/));
    this.name = name;
    // Texts and fields in turn: a text, a field's name, and how it is printed.
    this.parts = (name.startsWith('sys_exit_') ? '0x{ret:x}' : Object.hasOwn(KNOWN.texts, name) ? KNOWN.texts[name] : '').split(/\{(\w+)(?::(#?x))?\}/);
    const wanted = this.parts.filter((_, place) => place % 3 === 1), fields = found.every(Boolean) ? found.map(([, own, offset, size, kind]) => [own, { offset: Number(offset), size: Number(size), kind }]) : [];
    this.fields = new Map(fields);
    if (!found.every(Boolean) || listed(this.fields.keys()) !== listed(new Set(wanted)) || fields.some(([, { offset }]) => offset < 8)) fail(`its head says '${shown(text.slice(0, 80))}', an unknown format of an event`);
    const own = [...this.fields.values()];
    this.low = own.length ? Math.min(...own.map(({ offset }) => offset)) : 0;
    this.end = Math.max(0, ...own.map(({ offset, size }) => offset + size));
    this.isLong = own.some(({ kind }) => kind === 'l');
  }
  // Returns what an event says: it begins at `start` of a page, and the next one at `next`.
  said(page, start, next) {
    const end = Math.min(this.isLong ? next : start + this.end, page.byteLength);
    if (end - start < this.end) fail(`an event ${this.name} of it is cut`);
    let text = this.parts[0];
    for (let place = 1; place < this.parts.length; place += 3) text += this.value(page, start, end, ...this.parts.slice(place, place + 2)) + this.parts[place + 2];
    return text;
  }
  value(page, start, end, name, how) {
    const { offset, size, kind } = this.fields.get(name), at = start + offset;
    if (kind === 't') return textIn(page, at, size);
    const number = numberIn(page, at, size, kind === 's');
    if (kind === 'l') {
      const begin = Number(number) % 65536, long = Math.floor(Number(number) / 65536);
      if (begin < this.low || start + begin + long > end) fail(`an event ${this.name} of it has a text outside of it`);
      return textIn(page, start + begin, long);
    }
    if (name === 'prev_state') return BigInt(number) & 0xffn ? 'S' : 'R';
    if (name === 'ret' && !how) return number ? 'handled' : 'unhandled';
    return how ? (number < 0 ? '-' : '') + (how === '#x' ? '0x' : '') + (number < 0 ? -number : number).toString(16) : String(number);
  }
}

function numberIn(page, at, size, isSigned) {
  if (size === 8) return isSigned ? page.getBigInt64(at, true) : page.getBigUint64(at, true);
  if (size > 4) fail(`a number of ${size} bytes is in it`);
  let number = 0;
  for (let place = size - 1; place >= 0; place--) number = number * 256 + page.getUint8(at + place);
  return isSigned && number >= 2 ** (8 * size - 1) ? number - 2 ** (8 * size) : number;
}

function textIn(page, at, size) {
  const bytes = new Uint8Array(page.buffer, page.byteOffset + at, size), end = bytes.indexOf(0);
  return shown(decoded(end < 0 ? bytes : bytes.subarray(0, end)));
}

// The windows of a recording, as [begin, end, how long nothing was recorded before it]; the events of a probe don't count.
function windowsIn(head, base) {
  const text = head.windows || '', probe = head.probe || '', since = probe ? Number(BigInt(probe.match(/^\d{1,18}$/) ? probe : fail('its head has windows, or a probe, of an unknown format')) - base) : Infinity;
  if (!/^(\d{1,18}:\d{1,18}( (?=\d)|$))*$/.test(text)) fail('its head has windows, or a probe, of an unknown format');
  if (!text) return [[-Infinity, since, 0]];
  const windows = text.split(' ').map(each => each.split(':').map(edge => Number(BigInt(edge) - base))), edges = windows.flat();
  if (edges.some((edge, place) => edge < edges[place - 1])) fail('its head has windows that overlap');
  const first = windows.findIndex(([begin], place) => place && begin >= since && windows[place - 1][0] < since);
  let gap = 0;
  return windows.slice(0, first < 0 ? windows.length : first).map(([begin, end], place) => [begin, end, gap += place ? begin - windows[place - 1][1] : 0]);
}

// Yields the events of pages in the order of their times.
function* eventsInPages(bytes, at, head, isWanted) {
  const whole = new DataView(bytes.buffer, bytes.byteOffset, bytes.byteLength), layout = (head.pages || '').match(/^8 [48] (12|16)$/), names = new Map();
  if (!layout) fail(`its head says pages '${shown((head.pages || '').slice(0, 40))}', an unknown format`);
  const base = at + 16 <= bytes.length ? whole.getBigUint64(at + 8, true) : 0n, windows = windowsIn(head, base), formats = new Map();
  for (const key of Object.keys(head)) {
    if (/^task\.[0-9]{1,9}$/.test(key)) names.set(Number(key.slice(5)), head[key]);
    if (!/^format\.[0-9]{1,5}$/.test(key)) continue;
    const format = new Format(head[key]);
    if (isWanted(format.name)) formats.set(Number(key.slice(7)), format);
  }
  let held = [], last = 0, window = 0;
  function* ready(until) {
    held.sort((one, other) => one.time - other.time);
    const some = held.filter(event => event.time < until);
    held = held.slice(some.length);
    for (const event of some) {
      while (window < windows.length && event.time >= windows[window][1]) window++;
      if (window === windows.length || event.time < windows[window][0]) continue;
      yield Object.assign(event, { task: names.get(event.pid) ?? '<...>', time: event.time - windows[window][2] });
    }
  }
  for (let count = 1; at < bytes.length; count++) {
    const [cpu, size] = at + 8 <= bytes.length ? [whole.getUint32(at, true), whole.getUint32(at + 4, true)] : [0, 0];
    if (size > MOST_PAGE || cpu >= 65536) fail('it has a page of an unknown format');
    if (!size || at + 8 + size > bytes.length) fail("it is cut: its last page isn't whole");
    const page = new DataView(bytes.buffer, bytes.byteOffset + at + 8, size);
    at += 8 + size;
    try {
      const time = size < 8 ? fail('its size is wrong') : spanned(Number(page.getBigUint64(0, true) - base));
      if (time < last) fail('it is earlier than the one before');
      if (count % AT_ONCE === 0) yield* ready(time);
      decodePage(page, [time, base, Number(layout[1])], formats, (time, format, start, next) => held.push(eventAt(page, time, cpu, format, start, next, names)));
      last = time;
    } catch (error) {
      fail(`page ${count}: ${error instanceof RangeError ? "its last event isn't whole" : error.message}`);
    }
  }
  yield* ready(Infinity);
}

const spanned = time => Math.abs(time) <= MOST_SPAN ? time : fail('its times are more than 52 days apart');

function eventAt(page, time, cpu, format, start, next, names) {
  const bits = page.getUint32(start, true) >>> 16, said = format.said(page, start, next), isHard = bits & 0x48, isSoft = bits & 0x10;
  const found = format.name === 'sched_switch' && !names.has(said) && switchIn(said);
  if (found) names.set(found.pid, found.last).set(found.nextPid, found.next).set(said, ''); // each text once, as the tools do
  return { line: 0, time: spanned(time), cpu, name: format.name, said, pid: page.getUint32(start + 4, true), flags: isHard ? isSoft ? '..H' : '..h' : isSoft ? '..s' : '...' };
}

// Calls `add` for each event of a page that has one of these formats (kernel/trace/ring_buffer.c).
function decodePage(page, [time, base, data], formats, add) {
  const end = data + (page.byteLength < 12 ? fail('its size is wrong') : page.getUint32(8, true) & 0x3fffffff), word = at => page.getUint32(at, true);
  if (end > page.byteLength || end % 4 || page.byteLength % 4) fail('its size is wrong');
  let at = data;
  while (at < end) {
    const head = word(at), size = head & 31, delta = head >>> 5, past = time;
    let start = at += 4;
    if (size === PADDING) [time, at] = delta ? [time + delta, at + 4 * Math.floor((word(at) + 3) / 4)] : [time, end];
    else if (size === EXTEND) [time, at] = [time + word(at) * 2 ** 27 + delta, at + 4];
    else if (size === STAMP) [time, at] = [Number((BigInt(word(at)) << 27n | BigInt(delta)) - base), at + 4];
    else {
      time += delta;
      if (size) at += 4 * size;
      else [start, at] = [at + 4, at + 4 * Math.floor((word(at) + 3) / 4)];
      const format = formats.get(word(start) & 0xffff);
      if (format) add(time, format, start, at);
    }
    if (time < past) fail('its times go back');
  }
  if (at > end) fail("its last event isn't whole");
}

// ---- events of a text

const matcher = (pattern, end = '') => new RegExp(`^(?:${pattern})${end}`, 's');
const PATTERNS = Object.fromEntries(['line', 'lost', 'no_event', 'sent', 'polled', 'taken', 'received', 'switched', 'short'].map(name => [name, name === 'lost' ? new RegExp(KNOWN[name]) : matcher(KNOWN[name])]));

// Yields the events of a text of ftrace, trace-cmd or perf, from its line `first`. If the kernel lost events, adds a note to `lost`.
function* eventsInText(text, first, lost) {
  const names = new Map(), hasHead = first > 1, lines = text.replace(/\r\n?/g, '\n').split('\n'), isWhole = lines.at(-1) === '';
  if (isWhole) lines.pop();
  let base;
  for (const [place, line] of lines.entries()) {
    const number = first + place, found = line.match(PATTERNS.line), isCut = !isWhole && place === lines.length - 1;
    if (line.length >= MOST_LINE) fail(`line ${number}: longer than any line of ftrace`);
    if (isCut && (hasHead || !found)) fail(`it is cut: line ${number} isn't whole`);
    const loss = /LOST|DROPPED/.test(line) && line.match(PATTERNS.lost);
    if (loss) lost.push(`line ${number} of the recording: the kernel lost ${loss[1] || loss[2] || loss[3]} events`);
    else if (!found && !PATTERNS.no_event.test(line)) fail(`line ${number}: no line of ftrace, \`trace-cmd report\` or \`perf script\`: '${shown(line.trim().slice(0, 60))}'`);
    if (loss || !found) continue;
    const { task, pid, cpu, flags, seconds, fraction, name, call, is_exit: isExit, said } = { ...found.groups };
    base ??= Number(seconds);
    const event = { line: number, task: task === '<...>' ? names.get(Number(pid)) ?? task : task, cpu: Number(cpu), flags: flags || '', time: spanned((Number(seconds) - base) * 1e9 + Number(fraction.padEnd(9, '0'))) };
    Object.assign(event, { name: name || (isExit ? 'sys_exit_' : 'sys_enter_') + call, said: said.trimEnd(), pid: Number(pid) });
    const switched = event.name === 'sched_switch' && switchIn(event.said);
    if (switched) names.set(switched.nextPid, switched.next);
    yield event;
  }
}

function switchIn(said) {
  const [, last, pid, , , next, nextPid] = said.match(PATTERNS.switched) || said.match(PATTERNS.short) || [];
  return next === undefined ? null : { last, pid: Number(pid), next, nextPid: Number(nextPid) };
}

// ---- what events say

const unknown = ({ line, name, said }) => fail(`line ${line}: ${name} says '${shown(said.slice(0, 80))}', an unknown format`);
const parts = (event, pattern) => (event.said.match(PATTERNS[pattern]) || unknown(event)).slice(1);
const isNetRx = event => Number((event.said.match(/^vec=(\d{1,9})/) || unknown(event))[1]) === NET_RX;
const isByThread = ({ task, flags }) => task.startsWith('napi/') && !['s', 'h', 'H'].includes(flags[2]);
const isSoftirq = name => name === 'softirq_entry' || name === 'softirq_exit';

// Returns a packet's device and its size.
function packetOf(event) {
  const kind = KINDS[event.name], found = parts(event, TAKEN_BY[kind]);
  let size = Number(found[kind === BY_POLL ? 2 : 1]);
  if (kind === BY_STACK) size = Math.min(MOST_PACKET, size + LINK_HEADER);
  if (kind === BY_POLL) size = Math.min(MOST_PACKET, size + (found[3] === '1' && found[4] >= -256 && found[4] < 0 ? -found[4] : LINK_HEADER));
  if (size < 1 || size > MOST_PACKET) fail(`line ${event.line}: a packet of ${size} bytes, and a trace's have 1 to ${MOST_PACKET}`);
  return [found[0], size];
}

function endsOf(pair, names) {
  const ends = pair.split(':'), stars = ends.map(end => end.split('*').length - 1).join();
  if (ends.length !== 2 || !ends.every(Boolean) || !['0,0', '1,1'].includes(stars)) fail(`--pair ${pair}: not of the form A:B or va*:vb*`);
  if (stars === '0,0') return [ends];
  const shapes = ends.map(end => new RegExp(`^${end.replace(/[^\w*]/g, '\\$&').replace('*', '(\\d+)')}$`));
  const found = new Set([...names].flatMap(name => shapes.map(shape => name.match(shape)?.[1])).filter(Boolean));
  return [...found].sort((one, other) => one - other).map(number => ends.map(end => end.replace('*', number)));
}

// Returns which kind of event is an arrival, the names of the devices, and the number of the receiving device by the name in such an event. `counts`
// has the packets of each device by kind, `names` what else may belong to a pair.
function sourceOf(counts, names, head, most) {
  const every = new Set([...names, ...(counts.get(BY_PAIR) || new Map()).keys()]), wanted = worded(head.device);
  const ends = pairsIn(head).flatMap(pair => endsOf(pair, every)), paired = new Set(ends.flat());
  const isPaired = [...(counts.get(BY_PAIR) || new Map()).keys()].some(name => paired.has(name));
  const isOf = kind => counts.has(kind) && (!wanted.length || wanted.some(name => counts.get(kind).has(name)));
  const kind = isPaired ? BY_PAIR : [BY_POLL, BY_STACK].find(isOf) || BY_PAIR;
  if (kind === BY_PAIR) return [kind, ...devicesOfPairs(ends, every, most)];
  const of = counts.get(kind), named = wanted.filter(name => of.get(name)), order = (one, other) => of.get(other) - of.get(one) || (one < other ? -1 : 1);
  const devices = checkedNumber(named.length ? named : [...of.keys()].sort(order), most);
  return [kind, devices, new Map(devices.map((name, place) => [name, place + 1]))];
}
function devicesOfPairs(ends, names, most) {
  const devices = [...ends.map(([, second]) => second), ...ends.map(([first]) => first)], peers = new Map([...ends, ...ends.map(([first, second]) => [second, first])]);
  if (!devices.some(name => names.has(name))) fail(`no device of --pair is recorded; these are: ${listed(names) || 'none'}`);
  if (new Set(devices).size < devices.length) fail('a device is in two pairs');
  return [checkedNumber(devices, most), new Map([...peers].map(([sender, peer]) => [sender, devices.indexOf(peer) + 1]))];
}
const checkedNumber = (devices, most) => devices.length <= most ? devices : fail(`${devices.length} devices, and ${most === 16 ? 'a trace has' : 'arrivals have'} at most ${most}: name fewer pairs, or some by --device`);

function countedIn(packets) {
  const counts = new Map();
  for (const [kind, name] of packets) {
    if (!counts.has(kind)) counts.set(kind, new Map());
    counts.get(kind).set(name, (counts.get(kind).get(name) || 0) + 1);
  }
  return counts.size ? counts : fail('there is no packet in it: record the event net/net_dev_xmit while the other end of a veth pair sends, or of a card net/napi_gro_receive_entry or net/netif_receive_skb');
}

// ---- a trace

// Returns the rows of polls: those of a softirq, or those of a thread up to the first one that wasn't full.
function rowsOfPolls(events) {
  const rows = [], began = new Map(), latest = new Map(), since = new Map(), underWay = new Map();
  events.forEach((event, place) => {
    const { task, cpu, name } = event;
    if (task.startsWith('napi/') && !since.has(task)) since.set(task, latest.get(cpu) ?? place);
    latest.set(cpu, place);
    if (name === 'sched_switch') since.delete(task);
    else if (isSoftirq(name) && isNetRx(event)) {
      underWay.delete(cpu);
      began.set(cpu, name === 'softirq_entry' ? place : undefined);
    } else if (name === 'napi_poll') {
      const [, device, work, budget] = parts(event, 'polled'), byThread = isByThread(event), poller = byThread ? task : cpu;
      if ((byThread ? since.get(task) : began.get(cpu)) === undefined) return;
      const row = underWay.get(poller) || { thread: byThread ? device : '', polls: [] };
      if (!underWay.has(poller)) rows.push(row);
      underWay.set(poller, row);
      row.last = place;
      row.polls.push(device);
      since.set(task, place);
      if (byThread && Number(work) < Number(budget)) underWay.delete(poller);
    }
  });
  return rows;
}

function traceOf(events, head) {
  if (!events.length) fail('there is no event in it');
  const isPacket = ({ name }) => Object.hasOwn(KINDS, name), sent = event => parts(event, 'sent'), hasCome = event => SENT.includes(sent(event)[2]);
  const counts = countedIn(events.filter(isPacket).map(event => [KINDS[event.name], packetOf(event)[0]]));
  const polled = new Set(events.filter(({ name }) => name === 'napi_poll').map(event => parts(event, 'polled')[1]));
  const [kind, devices, arrivesAt] = sourceOf(counts, polled, head, 16), polls = rowsOfPolls(events), lasts = new Map(polls.map(row => [row.last, row]));
  const byThread = new Set(polls.map(({ thread }) => thread).filter(Boolean)), bySoftirq = new Set(polls.flatMap(row => row.thread ? [] : row.polls));
  const both = listed(devices.filter(name => byThread.has(name) && bySoftirq.has(name)));
  if (both) fail(`${both}: polled by a thread and in softirqs, and the recording doesn't say when that changed: record without the change`);
  const inRows = new Set(polls.flatMap(row => row.polls)), isPolled = name => !devices.some(each => inRows.has(each)) || inRows.has(devices[arrivesAt.get(name) - 1]);
  const rows = [], add = (time, device, event, value) => rows.push(`${Math.floor((time - events[0].time) / TICK)},${device},${event},${value}`);
  let arrived = 0, runs = 0;
  devices.forEach((name, place) => {
    add(events[0].time, place + 1, 'open', CAPACITY);
    if (byThread.has(name)) add(events[0].time, place + 1, 'threaded', 1);
  });
  events.forEach((event, place) => {
    if (isPacket(event) && KINDS[event.name] === kind) {
      const [name, size] = packetOf(event);
      if (!arrivesAt.has(name) || kind === BY_PAIR && !(hasCome(event) && isPolled(name))) return;
      arrived++;
      add(event.time, arrivesAt.get(name), 'rx', size);
    } else if (lasts.get(place)?.polls.some(name => devices.includes(name))) {
      const { thread } = lasts.get(place);
      runs++;
      add(event.time, devices.indexOf(thread) + 1, thread ? 'kthread' : 'softirq', 0);
    }
  });
  if (!arrived) fail(`there is no packet of ${shown(devices.join(', '))} in it, so nothing can be replayed`);
  if (rows.length > MOST_ROWS) fail(`${rows.length} rows, and a trace has at most ${MOST_ROWS}: record for a shorter time, or take some by \`fintaqush from-ftrace --rows\``);
  if (!runs) fail(`nothing polls in it${listed(polled) === '(no_device)' ? ' but a processor\'s backlog, which a trace doesn\'t have' : ''}: Machine takes its packets as arrivals`);
  const told = devices.map((name, place) => `device ${place + 1} is ${name}${byThread.has(name) ? ', polled by a thread' : ''}`);
  return [['moment,device,event,value', ...rows], kind === BY_PAIR ? told : [...told, 'a packet stands before the row of the poll that took it, so no ring is ever full']];
}

// ---- arrivals

// Returns what handles the events that arrivals depend on, by name, and adds the packets to `packets`: [time, kind, device, size].
function handlersOfArrivals(packets, ends) {
  const handlers = new Map(), began = new Map(), ended = new Map(), entered = new Map();
  let waiting = []; // what was sent and not polled yet: [processor, receiver, packet]
  // A packet that a poll takes came before the poll, or before the interrupt that requested it.
  const begin = ({ cpu, time }) => {
    const [asked, end] = ended.get(cpu) || [0, -Infinity];
    ended.delete(cpu);
    began.set(cpu, time - end <= SOON ? asked : time);
  };
  const addTaken = event => packets.push([began.get(event.cpu) ?? event.time, KINDS[event.name], ...packetOf(event)]);
  const peerOf = name => new Map(ends.flatMap(pair => endsOf(pair, [name])).flatMap(([first, second]) => [[first, second], [second, first]])).get(name) || '';
  const looks = {
    [BY_POLL]: addTaken, napi_gro_frags_entry: addTaken, [BY_STACK]: addTaken,
    softirq_entry: event => { if (isNetRx(event)) { begin(event); entered.set(event.cpu, event.time); } },
    softirq_exit: event => { if (isNetRx(event)) { began.delete(event.cpu); entered.delete(event.cpu); } },
    napi_poll: event => {
      began.set(event.cpu, event.time);
      const [, device, work] = parts(event, 'polled'), since = isByThread(event) ? -Infinity : entered.get(event.cpu) ?? -Infinity;
      if (!Number(work)) return;
      // The processor had the sender until its softirq began.
      for (const [cpu, peer, packet] of waiting) if (peer === device && cpu === event.cpu) packet[0] = Math.max(packet[0], since);
      waiting = waiting.filter(([, peer]) => peer !== device);
    },
    sched_switch: event => (switchIn(event.said) || unknown(event)).next.startsWith('napi/') ? begin(event) : began.delete(event.cpu),
    [BY_PAIR]: event => {
      const [name, , code] = parts(event, 'sent');
      if (![...SENT, ...DROPPED].includes(code)) return;
      packets.push([event.time, BY_PAIR, ...packetOf(event)]);
      waiting.push([event.cpu, peerOf(name), packets.at(-1)]);
    },
  };
  for (const name of KNOWN.handlers) {
    looks[`${name}_entry`] = ({ cpu, time }) => handlers.set(cpu, time);
    looks[`${name}_exit`] = ({ cpu, time }) => { if (handlers.has(cpu)) ended.set(cpu, [handlers.get(cpu), time]); handlers.delete(cpu); };
  }
  return looks;
}

function arrivalsOf(events, head) {
  const packets = [], looks = handlersOfArrivals(packets, pairsIn(head)), isLooked = name => Object.hasOwn(looks, name);
  for (const event of events(isLooked)) if (isLooked(event.name)) looks[event.name](event);
  const [kind, devices, arrivesAt] = sourceOf(countedIn(packets.map(packet => packet.slice(1, 3))), [], head, 4096);
  const own = packets.filter(packet => packet[1] === kind && arrivesAt.has(packet[2])).sort((one, other) => one[0] - other[0]);
  if (!own.length) fail(`no packet arrives at ${shown(devices.join(', '))} in it`);
  const rows = own.map(([time, , name, size]) => `${time - own[0][0]},${arrivesAt.get(name)},${size}`);
  return [['ns,device,bytes', ...rows], devices.map((name, place) => `device ${place + 1} is ${name}`)];
}

// Returns a trace of a recording, or arrivals, as text, and notes on it.
function convert(bytes, isArrivals) {
  const [version, head, at, count] = headIn(bytes), lost = [];
  let seen = 0;
  if (version) head.version = version;
  if (/^\d{1,20}$/.test(head.lost) && Number(head.lost)) lost.push(`the kernel lost ${head.lost} events`);
  function* events(isWanted = () => true) {
    for (const event of version === '2' ? eventsInPages(bytes, at, head, isWanted) : eventsInText(decoded(bytes.subarray(at)), version ? count + 3 : 1, lost)) {
      seen++;
      yield event;
    }
    if (version === '1' && head.lines !== String(seen)) fail(`it is cut: ${seen} of ${shown(head.lines ?? 'an unknown number of')} events are there`);
  }
  const [lines, told] = isArrivals ? arrivalsOf(events, head) : traceOf([...events()], head);
  if (isArrivals && lost.length) fail(`${lost[0]}, so results would be wrong: record for a shorter time, or with a larger buffer (fintaqush record --buffer)`);
  return [lines.join('\n') + '\n', [...lost, ...told]];
}

if (typeof self !== 'undefined')
  self.onmessage = ({ data: { bytes, isArrivals } }) => {
    try {
      const [text, notes] = convert(bytes, isArrivals);
      self.postMessage({ made: [new TextEncoder().encode(text), notes] });
    } catch (error) {
      self.postMessage({ error: String(error.message || error) });
    }
  };
