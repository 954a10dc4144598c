// node web.cjs MODULE JOBS: runs each line of JOBS, {program, words, input} with base64 texts, by web/fintaqush.js in this process, and prints
// a line {status, out, said} for each, which web.py compares with the native programs. Then it tries what no native run shows: input in
// pieces, each allocation refused in turn, a read and a write that fail. It prints a line for each result that is wrong.
'use strict';
const fs = require('fs');
const { Fintaqush, ranOn } = require('../web/fintaqush.js');
const [, , file, jobs] = process.argv;
const bytesOf = text => new Uint8Array(Buffer.from(text, 'base64'));
const textOf = bytes => Buffer.from(bytes).toString('base64');

function expect(name, seen, wanted) {
  if (seen !== wanted) console.log(`${name}: ${seen} and not ${wanted}`);
}

// Returns the status, the output and the messages of a run as one text. The input comes in these pieces, of which one that is a function is
// called; `write` is called before each write.
function ended(own, program, words, input, write = () => {}) {
  const pieces = [...input], outputs = ['', '', ''];
  const read = () => {
    const piece = pieces.shift();
    return typeof piece === 'function' ? piece() : piece || null;
  };
  const status = own.run(program, words, read, (end, bytes) => {
    write(end);
    outputs[end] += Buffer.from(bytes);
  });
  return `${status} ${outputs[1]}${outputs[2]}`;
}

// Refuses each allocation of a run in turn: it ends with the fault, or prints the whole report if it could do without. Returns how often it
// ended with the fault.
function refusals(own, program, words, input) {
  const fault = '4 memory fault 11 OutOfMemory\n', whole = ended(own, program, words, [input]);
  for (let nth = 1, faults = 0; ; nth++) {
    let count = 0;
    own.start();
    own.heap.take = (size, align) => ++count === nth ? 0 : Object.getPrototypeOf(own.heap).take.call(own.heap, size, align);
    const seen = ended(own, program, words, [input]);
    delete own.heap.take;
    if (count < nth) return faults;
    if (seen === fault) faults++;
    else expect(`${program} without allocation ${nth}`, seen, whole);
  }
}

function tries(own, program, words, input) {
  const fails = () => { throw new Error('refused'); };
  const kind = program === 'napi_machine' ? 'arrivals' : 'trace';
  expect(`${program} in pieces`, ended(own, program, words, Array.from(input, byte => Uint8Array.of(byte))), ended(own, program, words, [input]));
  expect(`${program} and a read that fails`, ended(own, program, words, [input.subarray(0, 40), fails]), `2 ${kind} fault 10 ReadFailed\n`);
  expect(`${program} and a write that fails`, ended(own, program, words, [input], end => end === 1 && fails()), '4 output fault 15 OutputFailed\n');
  expect(`${program} misses allocations`, refusals(own, program, words, input) > 2, true);
}

(async () => {
  const own = await Fintaqush.open(fs.readFileSync(file));
  for (const line of fs.readFileSync(jobs, 'utf8').split('\n').filter(Boolean)) {
    const { program, words, input } = JSON.parse(line);
    const { status, out, said } = ranOn(own, program, words.map(bytesOf), bytesOf(input));
    console.log(JSON.stringify({ status, out: textOf(out), said: textOf(said) }));
  }
  const trace = fs.readFileSync(`${__dirname}/../examples/two-packets.csv`);
  tries(own, 'napi_serial', [], trace);
  tries(own, 'napi_series', ['--polls', '--raise'], trace);
  tries(own, 'napi_machine', [], fs.readFileSync(`${__dirname}/../crates/napi_machine/stdin`));
  const small = await Fintaqush.open(fs.readFileSync(file), 2);
  expect('a run with 2 MiB', ended(small, 'napi_series', [], [Buffer.from(`moment,device,event,value\n${'0,1,open,65536\n'}`)]), '4 memory fault 11 OutOfMemory\n');
})();
