// node page.cjs BROWSER PROGRAMS FOLDER: tries web/index.html in a browser without a window. What it shows is compared with what the native programs
// print (PROGRAMS is the folder crates/), and a capture's trace with that of `fintaqush from-pcap`. Prints a line for each check that fails, and
// last how many there were.
'use strict';
const { execFileSync, spawnSync } = require('child_process');
const fs = require('fs');
const path = require('path');
const zlib = require('zlib');
const { open } = require('./browser.cjs');
const [, , browser, programs, folder] = process.argv;
const TOP = path.join(__dirname, '..');
const FLAGS = { 0: 'SCHED', 1: 'MISSED', 2: 'DISABLE', 3: 'NPSVC', 6: 'IN_BUSY_POLL', 8: 'THREADED', 9: 'SCHED_THREADED', 32: 'QUEUED', 33: 'TO_THREAD' };
let checks = 0, failures = 0;

function expect(name, seen, wanted) {
  checks++;
  if (JSON.stringify(seen) === JSON.stringify(wanted)) return;
  failures++;
  console.log(`${name}: ${JSON.stringify(seen)?.slice(0, 300)} and not ${JSON.stringify(wanted).slice(0, 300)}`);
}

// What a native program prints.
function native(program, words, input) {
  const { stdout, stderr, status } = spawnSync(`${programs}/${program}/out/${program}`, words, { input, maxBuffer: 1 << 28 });
  return status ? String(stderr) : String(stdout);
}
const exampleOf = name => fs.readFileSync(`${TOP}/examples/${name}.csv`, 'utf8');

// Chooses an example with these settings, and returns the report that the page shows.
const shows = (tab, name, budget, isRaised) => tab.run(`(async () => {
  by('budget').value = placeOf(${budget}); by('raise').checked = ${isRaised}; by('example').value = '${name}';
  await page.takeExample('${name}'); return by('report').textContent; })()`);

// The replay of each example, with three budgets, also with added runs.
async function replays(tab) {
  for (const name of await tab.run(`[...by('example').options].map(option => option.value)`))
    for (const [budget, isRaised] of [[16, false], [300, false], [16, true]]) {
      const text = exampleOf(name), trace = isRaised ? native('napi_series', ['--raise', '--rows', `--budget=${budget}`], text) : text;
      const wanted = native('napi_serial', [`--budget=${budget}`], trace);
      expect(`${name} with budget ${budget}`, (await shows(tab, name, budget, isRaised)).replace(/^budget .*: (?=trace fault)/, ''), wanted);
      if (/^trace fault/.test(wanted)) continue;
      const squeezed = wanted.match(/^total .* squeezed (\d+)$/m)[1];
      expect(`${name}: the sum`, (await tab.run(`by('sum').textContent`)).split(' ')[0], squeezed);
      expect(`${name}: red bars`, await tab.run(`page.replay.sides[0].red.filter(work => work >= 0).length`), Number(squeezed));
    }
}

// What must be shown after each row, from the report of the rows up to there.
function* wantedOf(name) {
  const [header, ...rows] = exampleOf(name).trim().split('\n');
  const capacities = new Map(rows.map(row => row.split(',')).filter(row => row[2] === 'open').map(row => [row[1], row[3]]));
  for (let number = 0; number <= rows.length; number++) {
    const lines = native('napi_serial', [], [header, ...rows.slice(0, number), ''].join('\n')).trim().split('\n').map(line => line.split(' '));
    const of = (kind, place) => new Map(lines.filter(line => line[0] === kind).map(line => [line[1], place(line)]));
    const words = of('napi', line => Number(line[13])), queues = of('tx', line => `queue limit ${line[11]} bytes, ${line[11] - line[13]} in flight, ${line[13]} free${line[15] === '1' ? ', stopped' : ''}`);
    const list = lines.find(line => line[0] === 'list').slice(1);
    yield { place: `row ${number} of ${rows.length}`, list: list.map(device => `device ${device}`).join('') || 'empty', devices: lines.filter(line => line[0] === 'device').map(line => [
      `device ${line[1]}, ${line[2]}`, `${line[12]} of ${capacities.get(line[1])} packets in the ring`, `${line[4]} arrived, ${line[8]} polled, ${line[6]} dropped`,
      Object.entries(FLAGS).filter(([bit]) => Math.floor(words.get(line[1]) / 2 ** bit) % 2).map(([, flag]) => flag).join(' '), queues.get(line[1]) || '']) };
  }
}

// Steps through whole examples by the key, the button and the slider in turn.
async function steps(tab) {
  await tab.run(`page.show('steps')`);
  for (const name of ['two-packets', 'queue-limit', 'two-queues', 'busy-poll']) {
    await shows(tab, name, 300, false);
    const seen = await tab.run(`(() => {
      const key = name => dispatchEvent(new KeyboardEvent('keydown', { key: name }));
      const on = [() => key('ArrowRight'), () => by('forth').click(), () => { by('slider').value++; by('slider').dispatchEvent(new Event('input')); }];
      const text = (where, name) => (where.querySelector(name) || { textContent: '' }).textContent, told = [];
      key('Home');
      for (let here = 0; here <= page.steps.keys.length; here++) {
        told.push({ place: by('place').textContent, list: text(document, '.list'), devices: [...document.querySelectorAll('.device')].map(card => [
          text(card, 'h2'), text(card, '.waiting'), text(card, '.counts'), [...card.querySelectorAll('.chip')].map(chip => chip.textContent).join(' '), text(card, '.limit')]) });
        if (!document.querySelector('.said li')) told.push('no sentence');
        on[here % 3]();
      }
      return told; })()`);
    expect(`the steps of ${name}`, seen, [...wantedOf(name)]);
  }
  // By hand: with a budget and a weight of 1 the run of row 9 stops after one packet, and two are added after it.
  await tab.run(`(by('weight').value = 1, 0)`);
  await shows(tab, 'two-queues', 1, true);
  await tab.run(`page.steps.go(page.steps.keys.findIndex(key => key[0] === 9) + 1)`);
  expect('a squeezed run', await tab.run(`[by('place').textContent, document.querySelectorAll('.polls tbody tr').length, by('sides').textContent.includes('The run is squeezed')]`), ['row 9 of 14', 1, true]);
  await tab.run(`dispatchEvent(new KeyboardEvent('keydown', { key: 'ArrowRight' }))`);
  expect('the run added after it', await tab.run(`by('place').textContent`), 'row 9 of 14, added run 1');
  await tab.run(`(by('beside').checked = true, by('budget2').value = placeOf(300), page.run())`);
  expect('a run that only one setting adds', await tab.run(`[...document.querySelectorAll('.said')].map(said => said.textContent.includes('no run is added here'))`), [false, true]);
  const labels = await tab.run(`['play', 'pause', 'play'].map((_, click) => { if (click) by('play').click(); return by('play').getAttribute('aria-label'); })`);
  expect('playing', labels, ['play', 'pause', 'play']);
  await tab.run(`(by('weight').value = 64, by('beside').checked = false)`);
  // Of many devices those that are idle and empty have no card.
  await shows(tab, 'linux-veth-small-budget', 64, false);
  await tab.run(`page.steps.goToMark(1)`);
  expect('the devices of a recording', await tab.run(`[by('place').textContent, document.querySelectorAll('.device').length + document.querySelector('.quiet').textContent.split(',').length - 1]`), ['row 137 of 16203', 12]);
  // In recordings the polls of each run sum to those of the report.
  for (const name of ['linux-veth-bursts', 'linux-veth-tcp']) {
    const report = await shows(tab, name, 16, false), lines = [...report.matchAll(/^softirq (\d+) polls (\d+) work (\d+)/gm)].map(([, ...numbers]) => numbers.map(Number));
    expect(`the polls of ${name}`, await tab.run(`${JSON.stringify(lines)}.map(([row]) => { const polls = page.steps.sides[0].pollsAt(row - 1); return [row, polls.length, polls.reduce((sum, { cells }) => sum + cells[2], 0)]; })`), lines);
  }
}

// What the page shows after each row of a trace: its sentences with their rules, and its polls (device, packets, how it ended, budget left).
const stepped = (tab, rows, budget, weight, header = 'moment,device,event,value') => tab.run(`(async () => {
  by('budget').value = placeOf(${budget}); by('weight').value = ${weight}; by('raise').checked = false;
  await page.take(new TextEncoder().encode(${JSON.stringify([header, ...rows, ''].join('\n'))}), 'by hand');
  return page.steps.keys.map((_, place) => {
    page.steps.go(place + 1);
    const polls = [...document.querySelectorAll('.polls tbody tr')], cells = polls.map(row => [...row.children].map(cell => cell.textContent));
    return { said: document.querySelector('.said').textContent, polls: cells.map(([, device, packets, ending, left]) => [Number(device), Number(packets), ending, Number(left)]) };
  }); })()`);
const AGAIN = 'a request was missed: poll again', REPOLL = 'its whole weight: repoll', COMPLETE = 'complete';
// Three devices with 3, 1 and 2 packets in their rings; all requests after a device's first one are missed.
const QUEUED = ['0,1,open,8', '0,2,open,8', '0,3,open,8', '1,1,rx,60', '1,2,rx,60', '1,1,rx,60', '1,3,rx,60', '1,1,rx,60', '1,3,rx,60'];

// By hand, from the kernel's texts: napi_schedule_prep returns false if DISABLE is set, and sets MISSED if SCHED is, as that of a disabled
// instance is; __napi_busy_loop spins until loop_end if it can't take the instance; __napi_poll completes after a full weight if
// napi_disable_pending, and a missed request is polled first.
async function sentences(tab) {
  const rows = ['0,1,open,2', '1,1,rx,60', '1,1,rx,60', '1,1,rx,60', '2,0,softirq,0', '3,0,softirq,0', '4,1,disable,0', '4,1,rx,60', '6,1,tx,100', '7,1,done,1', '7,1,done,1'];
  const wanted = [['netif_napi_add', 'ring of 2 packets'], ['SCHED is set', 'tail of the poll list', '____napi_schedule'], ['MISSED is set', 'napi_schedule_prep'], ['full', 'dropped'],
    ['1 poll and takes 1 packet', 'squeezed', 'time_squeeze'], ['1 poll and takes 1 packet', 'next run'], ['DISABLE is set', 'pending'], ['refused', 'DISABLE'],
    ['100 bytes are in flight; the limit is 0', 'queue is stopped'], ['The limit goes from 0 to 100', 'dql_completed', 'is started', 'netif_schedule_queue'], ['is refused']];
  const seen = await stepped(tab, rows, 1, 1);
  wanted.forEach((texts, row) => texts.forEach(text => expect(`row ${row + 1} says ${text}`, seen[row].said.includes(text), true)));
  const busy = ['0,1,open,4', '1,1,rx,60', '1,1,rx,60', '1,1,busy,2', '2,1,disable,0', '2,1,busy,2', '2,1,rx,60', '3,0,softirq,0', '4,1,rx,60', '4,1,busy,2', '5,1,enable,0'];
  const others = await stepped(tab, busy, 300, 1, 'moment,device,event,value,2');
  for (const [row, text, not] of [[3, 'one more poll', 'no poll'], [4, 'scheduled already. It spins until its loop ends', 'nothing to poll'], [6, 'about to be disabled. It spins', 'nothing to poll'],
    [7, 'refused because DISABLE is set', 'MISSED'], [8, 'isn\'t polled again for the packets that wait', 'no more packets'], [9, 'MISSED is set too, and no poll follows', 'one more poll'],
    [10, 'which is disabled. It spins', 'nothing to poll']])
    expect(`row ${row} of busy polling`, [others[row - 1].said.includes(text), others[row - 1].said.includes(not)], [true, false]);
}

// By hand, with a weight of 2. The list has 1, 2 and 3. Device 1 has three packets: its poll takes two and asks for a repoll. Device 2 has one and no
// missed request, so it completes. Device 3 has two, its whole weight. Then the run stops, because devices wait for a repoll. The next run takes device 1's
// last packet: a request was missed, so it is polled again; device 3 has none left, and a missed request; then each is polled once more, and completes.
async function polls(tab) {
  const rows = [...QUEUED, '2,0,softirq,0', '3,0,softirq,0'], of = steps => steps.map(step => step.polls).filter(polls => polls.length);
  expect('polls', of(await stepped(tab, rows, 10, 2)), [[[1, 2, REPOLL, 8], [2, 1, COMPLETE, 7], [3, 2, REPOLL, 5]], [[1, 1, AGAIN, 9], [3, 0, AGAIN, 9], [1, 0, COMPLETE, 9], [3, 0, COMPLETE, 9]]]);
  expect('polls with a budget of 3', of(await stepped(tab, rows, 3, 2)), [[[1, 2, REPOLL, 1], [2, 1, COMPLETE, 0]], [[3, 2, REPOLL, 1], [1, 1, AGAIN, 0]]]);
  // After the first poll the list has the others and then device 1, which has one packet left.
  await stepped(tab, [...QUEUED, '2,0,softirq,0'], 300, 2);
  await tab.run(`document.querySelector('.polls tbody tr').click()`);
  expect('the state within a run', await tab.run(`[document.querySelector('.list').textContent, document.querySelector('.device .waiting').textContent, document.querySelector('.after').textContent]`),
    ['device 2device 3device 1', '1 of 8 packets in the ring', 'After poll 1 of 3:']);
  // A run that is squeezed after two polls, at row 11, and a packet that finds a ring full, at row 10.
  await stepped(tab, [QUEUED[0], '0,2,open,1', ...QUEUED.slice(2), '1,2,rx,60', '2,0,softirq,0'], 3, 2);
  expect('marks', await tab.run(`(page.steps.go(0), [1, 1, -1].map(way => (page.steps.goToMark(way), page.steps.at())))`), ['10', '11', '10']);
  // A disable that is pending completes at the end of the run that polls the device.
  const [last] = (await stepped(tab, ['0,1,open,8', '0,2,open,8', '1,1,rx,60', '1,2,rx,60', '1,1,disable,0', '2,0,softirq,0'], 300, 64)).slice(-1);
  expect('a disable that completes', [last.said.includes('the pending disable completes'), await tab.run(`document.querySelector('.device h2').textContent`)], [true, 'device 1, off']);
}

// Arrivals that the page makes, and what it says of them, for each thing that it shows.
async function machines(tab) {
  await tab.run(`page.show('machine')`);
  for (const name of await tab.run(`Object.keys(SHOWN)`)) {
    const [seen, sides] = await tab.run(`(async () => {
      page.machine.showOne(SHOWN['${name}']); await page.machine.run();
      const lines = page.machine.arrivals().lines;
      return [page.machine.shown, [page.machine.today, page.machine.moved].map(settings => [page.machine.wordsOf(settings), lines.map(line => (settings.queues || 1) > 1 ? line : line.slice(0, line.lastIndexOf(','))).join('\\n') + '\\n'])]; })()`);
    sides.forEach(([words, text], place) => {
      const report = native('napi_machine', words, text), [, dropped] = report.match(/^total .* dropped (\d+)/m);
      const waits = [...report.matchAll(/^processor .* wait99 (\d+)/gm)].map(([, wait]) => Number(wait));
      expect(`${name}: ${words}`, [seen[place].total.dropped, seen[place].waits[2]], [Number(dropped), Math.max(...waits)]);
    });
  }
  const [interrupts, polling, said] = await tab.run(`(async () => { page.machine.showOne(SHOWN['Polling or interrupts']); await page.machine.run();
    return [...page.machine.shown.map(each => each.total.used), by('predicted').textContent]; })()`);
  expect('polling lets the program use more packets', interrupts < polling, true);
  expect('the settings that differ', said.match(/\w+ \(.*?\)(?=: median)/g), ['Today (budget 0)', 'Moved (budget 300)']);
}

// Captures of 100 packets: pcap with times in us, pcap with times in ns in the other byte order, and pcapng, the last packed by gzip too.
function captures() {
  const packets = Array.from({ length: 100 }, (_, place) => [BigInt(place) * 300000n + 1700000000n * 1000000000n, 60 + place]);
  const body = length => Buffer.alloc(length, 1);
  const pcap = (write, magic, tick) => Buffer.concat([Buffer.from(magic, 'hex'), write([2, 4], 16), write([0, 0, 65535, 1], 32),
    ...packets.flatMap(([time, length]) => [write([Number(time / 1000000000n), Number(time % 1000000000n / tick), length, length], 32), body(length)])]);
  const writer = end => (values, bits) => Buffer.concat(values.map(value => { const some = Buffer.alloc(bits / 8); some[`writeUInt${bits}${end}`](value); return some; }));
  const little = writer('LE'), block = (kind, inside) => Buffer.concat([little([kind, inside.length + 12], 32), inside, little([inside.length + 12], 32)]);
  const ng = Buffer.concat([block(0x0a0d0d0a, Buffer.concat([little([0x1a2b3c4d], 32), little([1, 0], 16), Buffer.alloc(8, 255)])),
    block(1, Buffer.concat([little([1, 0], 16), little([0], 32), little([9, 1], 16), Buffer.from([9, 0, 0, 0]), little([0, 0], 16)])),
    ...packets.map(([time, length]) => block(6, Buffer.concat([little([0, Number(time >> 32n), Number(time & 0xffffffffn), length, length], 32), body(length + (4 - length % 4) % 4)])))]);
  return { 'us.pcap': pcap(little, 'd4c3b2a1', 1000n), 'ns.pcap': pcap(writer('BE'), 'a1b23c4d', 1n), 'x.pcapng': ng, 'x.pcapng.gz': zlib.gzipSync(ng) };
}
async function files(tab) {
  await tab.run(`page.show('replay')`);
  await tab.run(`(by('budget').value = placeOf(300), by('weight').value = 64)`);
  const take = (name, bytes) => tab.run(`(async () => { await page.takeFile(new File([bytesOf('${Buffer.from(bytes).toString('base64')}')], '${name}')); return textOf(page.trace); })()`);
  for (const [name, bytes] of Object.entries(captures())) {
    fs.writeFileSync(`${folder}/${name}`, bytes);
    execFileSync(`${TOP}/fintaqush`, ['from-pcap', `${folder}/${name}`, `${folder}/made`, '--one-device', '-Q', 'inout', '--force']);
    expect(name, await take(name, bytes), fs.readFileSync(`${folder}/made.csv`, 'utf8'));
  }
  expect('what is said of a capture', await tab.run(`by('told').textContent.startsWith('Each packet of the capture counts')`), true);
  await take('bad.csv', 'moment,device,event,value\n0,1,Rx,9\n');
  expect('a bad trace', await tab.run(`[by('sum').textContent, by('sum').className]`), ['budget 300, weight 64: trace fault 4 BadEvent row 1', 'bad']);
  // A recording: in Replay its trace, in Machine its arrivals.
  const recording = `${TOP}/tests/tools/recorded-pages.rec.gz`, packed = fs.readFileSync(recording), made = (...words) => {
    execFileSync(`${TOP}/fintaqush`, ['from-ftrace', recording, `${folder}/made`, '--force', ...words]);
    return fs.readFileSync(`${folder}/made.csv`, 'utf8');
  };
  expect('a recording', await take('mine.rec.gz', packed), made());
  expect('what is said of a recording', await tab.run(`by('told').textContent.includes('device 1 is vb1, polled by a thread')`), true);
  await take('cut.rec', zlib.gunzipSync(packed).subarray(0, 20000));
  expect('a recording that is cut', await tab.run(`by('sum').textContent`), "cut.rec: it is cut: its last page isn't whole");
  await take('other.rec', 'fintaqush-recording 3\n');
  expect('a recording of another version', await tab.run(`by('sum').textContent.includes('another version of fintaqush record')`), true);
  await tab.run(`page.show('machine')`);
  await take('mine.rec.gz', packed);
  expect('arrivals of a recording', await tab.run(`page.machine.running.then(() => [textOf(page.machine.file.bytes), page.machine.shown[0].total.arrived, by('from_file').textContent.split(' As ')[0]])`), [made('--arrivals'), 80, 'arrivals of mine.rec.gz.']);
  await take('rps.rec.gz', fs.readFileSync(`${TOP}/tests/tools/recorded-rps.rec.gz`));
  expect('arrivals that a backlog polled', await tab.run(`page.machine.running.then(() => page.machine.shown[0].total.arrived)`), 621);
  // A table of what-if, by hand and as the tool writes it.
  const table = (name, bytes) => tab.run(`(async () => { await page.takeFile(new File([bytesOf('${Buffer.from(bytes).toString('base64')}')], '${name}'));
    return [by('predicted').textContent, [...document.querySelectorAll('#compared tr')].map(row => [...row.children].map(cell => cell.textContent).join(' '))]; })()`);
  const byHand = 'load,ring,arrived,dropped,refused,used_p99\n1,64,100,0,0,5000\n1,256,100,0,0,6000\n2,64,100,10,0,90000\n2,256,100,0,0,70000\n';
  expect('a table', await table('x.csv', byHand), ['At load 2 the lowest 99th percentile without losses is that of ring 256: 70 \u00b5s.',
    ['load combination 99 % of waits lost', '1 ring 64 5 \u00b5s 0 %', '2 ring 64 90 \u00b5s 10 %', '1 ring 256 6 \u00b5s 0 %', '2 ring 256 70 \u00b5s 0 %']]);
  made('--arrivals');
  const printed = execFileSync(`${TOP}/fintaqush`, ['what-if', `${folder}/made.csv`, '--ring', '1,2,256', '--load', '1,100', '--band', '0', '--csv', '--out', `${folder}/rows.csv`]);
  execFileSync(`${TOP}/fintaqush`, ['what-if', `${folder}/made.csv`, '--ring', '1,2,256', '--load', '1,100', '--band', '0', '--json', `${folder}/rows.json`]);
  const seen = await table('rows.csv', printed);
  expect('a table of what-if', [seen[1].length, seen[1][6].startsWith('100 ring 256 ')], [7, true]);
  for (const name of ['rows.csv', 'rows.json']) expect(`a table as ${name}`, await table(name, fs.readFileSync(`${folder}/${name}`)), seen);
  const many = Array.from({ length: 16 }, (_, place) => `${1 + place % 2},${1 + (place >> 1)},9,0,0,1\n`).join('');
  expect('a table of many curves', (await table('x.csv', `load,ring,arrived,dropped,refused,used_p99\n${many}`))[0], 'x.csv: 8 curves, of which at most 6 can be told apart: vary fewer options at a time');
  await tab.run(`page.show('replay')`);
}

// Links, what is saved, a narrow screen, and that nothing is loaded.
async function rest(tab, url) {
  await tab.run(`(history.replaceState(null, '', '#view=replay&example=linux-veth-small-budget&budget=64&weight=64&budget2=300&weight2=64&from=100&to=200'), page.goToLink())`);
  expect('a link', await tab.run(`[page.replay.sides.length, page.replay.span, budgetOf(by('budget').value), by('sum').textContent.includes('55 of 544 runs squeezed')]`), [2, [100, 200], 64, true]);
  const rows = exampleOf('linux-veth-small-budget').trim().split('\n').length - 1;
  expect('the CSV', await tab.run(`page.replay.csv().trim().split('\\n').length`), 2 * rows + 1);
  expect('the SVG', await tab.run(`new DOMParser().parseFromString(page.replay.svg(), 'image/svg+xml').querySelectorAll('rect').length > 100`), true);
  expect('the text of the picture', await tab.run(`by('chart').getAttribute('aria-label').startsWith('budget 64, weight 64: 55 of 544 runs squeezed')`), true);
  const page = fs.readFileSync(`${TOP}/web/index.html`, 'utf8').replace(/"[A-Za-z0-9+/=]{1000,}"/g, '');
  expect('what it would load', page.match(/(src|href)="[^"]*"|https?:\/\/(?!www\.w3\.org\/)[^"'` )]*|@import/g), null);
  expect('errors', tab.errors, []);
  const narrow = await open(browser, `${folder}/narrow`, url, 360, 800);
  await narrow.run('page.shown');
  for (const view of ['replay', 'steps', 'machine'])
    expect(`${view} on a phone is`, await narrow.run(`(page.show('${view}'), document.documentElement.scrollWidth)`), 360);
  await narrow.close();
}

(async () => {
  const url = `file://${TOP}/web/index.html`, tab = await open(browser, `${folder}/wide`, url);
  await tab.run('page.shown');
  for (const part of [replays, steps, sentences, polls, machines, files]) await part(tab);
  await rest(tab, url);
  await tab.close();
  console.log(`${checks} checks of the page, ${failures} failed`);
  process.exitCode = failures ? 1 : 0;
})();
