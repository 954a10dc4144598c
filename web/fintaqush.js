#!/usr/bin/env node
// Runs the programs of fintaqush.wasm (scripts/web.sh), in node or in a worker of a page: arguments and a trace in, two outputs and a
// status out.
//
//     node fintaqush.js napi_serial|napi_series|napi_machine [OPTION ..] < TRACE
//
// The files next to it with the name of a program run that program. REPLAY_MEMORY=N limits the memory of a run to N MiB (2048).
'use strict';

const PAGE = 65536, BLOCK = 16, MOST_MIB = 2048;
const NO_ARGUMENT = -1n, TOO_LONG = -2n, FAILED = -1n;
const IO_ERROR = 5, NO_SEEK = 29; // of errno.h
const PROGRAMS = ['napi_serial', 'napi_series', 'napi_machine'];

// The heap of a run. A block begins with its capacity, and has the next power of two, or whole pages if it is large. A freed block
// is used again for one of the same capacity. All blocks end with the run.
class Heap {
  constructor(memory, base, most) {
    Object.assign(this, { memory, base, most });
    this.clear();
  }
  clear() {
    this.top = this.base;
    this.free = new Map();
  }
  static capacity(size) {
    return size > PAGE ? Math.ceil(size / PAGE) * PAGE : Math.max(BLOCK, 2 ** (32 - Math.clz32(size - 1)));
  }
  // Returns the address of a block, or 0 if there is no memory for it.
  take(size, align) {
    const capacity = Heap.capacity(size), freed = align > BLOCK ? [] : this.free.get(capacity) || [];
    if (freed.length) return freed.pop();
    const at = Math.ceil((this.top + BLOCK) / Math.max(align, BLOCK)) * Math.max(align, BLOCK), end = at + capacity;
    if (end > this.most) return 0;
    const lacking = end - this.memory.buffer.byteLength;
    try {
      if (lacking > 0) this.memory.grow(Math.ceil(lacking / PAGE));
    } catch {
      return 0;
    }
    this.top = end;
    new DataView(this.memory.buffer).setUint32(at - BLOCK, capacity, true);
    return at;
  }
  capacityOf(at) {
    return new DataView(this.memory.buffer).getUint32(at - BLOCK, true);
  }
  give(at) {
    const capacity = this.capacityOf(at), freed = this.free.get(capacity);
    if (freed) freed.push(at);
    else this.free.set(capacity, [at]);
  }
  move(at, kept, size, align) {
    if (size <= this.capacityOf(at)) return at;
    const to = this.take(size, align);
    if (to) {
      new Uint8Array(this.memory.buffer).copyWithin(to, at, at + kept);
      this.give(at);
    }
    return to;
  }
}

const joined = (low, high) => BigInt.asUintN(64, low) | (BigInt.asUintN(64, high) << 64n);

// The module with its memory. A run is `run(program, words, read, write)`: `read()` returns the next piece of the input, of any length,
// and null at its end; `write(end, bytes)` takes bytes of output 1 or 2.
class Fintaqush {
  // Compiles the module from its bytes.
  static async open(bytes, mib = MOST_MIB) {
    const own = new Fintaqush();
    own.module = await WebAssembly.compile(bytes);
    own.most = mib * 2 ** 20;
    return own;
  }

  run(program, words, read, write) {
    if (!PROGRAMS.includes(program)) throw new Error(`there is no program ${program}`);
    this.start();
    const encoder = new TextEncoder();
    this.words = [program, ...words].map(word => typeof word === 'string' ? encoder.encode(word) : word);
    Object.assign(this, { read, write, piece: new Uint8Array(), errno: 0 });
    try {
      return this.exports[program]() & 255;
    } catch (error) {
      this.exports = null; // which a trap leaves in any state
      throw error;
    } finally {
      this.read = this.write = this.piece = null;
      if (this.heap) this.heap.clear();
    }
  }

  // Instantiates the module, unless the memory of the last run can be used again.
  start() {
    if (this.exports && this.heap.memory.buffer.byteLength <= 64 * 2 ** 20) return;
    this.exports = new WebAssembly.Instance(this.module, { env: this.functions() }).exports;
    this.heap = new Heap(this.exports.memory, Number(this.exports.__heap_base.value), this.most);
  }

  bytes(at, count) { return new Uint8Array(this.heap.memory.buffer, Number(at), Number(count)); }

  // Writes a number of 128 bits, or a struct of two numbers of 64.
  put(to, low, high) {
    const view = new DataView(this.heap.memory.buffer);
    view.setBigUint64(Number(to), BigInt.asUintN(64, low), true);
    view.setBigUint64(Number(to) + 8, BigInt.asUintN(64, high), true);
  }
  wide(to, value) { this.put(to, value, value >> 64n); }
  block(to, at) { this.put(to, at ? 1n : 0n, BigInt(at || BLOCK)); }

  argument(number, to, room) {
    const word = this.words[Number(number)];
    if (!word) return NO_ARGUMENT;
    if (word.length > Number(room)) return TOO_LONG;
    this.bytes(to, word.length).set(word);
    return BigInt(word.length);
  }

  // Calls a function of the host; if it fails, sets errno.
  tried(call) {
    try {
      return BigInt(call());
    } catch (error) {
      this.errno = error.errno ? Math.abs(error.errno) : IO_ERROR;
      return FAILED;
    }
  }

  take(to, room) {
    while (this.piece && !this.piece.length) this.piece = this.read();
    if (!this.piece) return 0;
    const some = this.piece.subarray(0, Number(room));
    this.bytes(to, some.length).set(some);
    this.piece = this.piece.subarray(some.length);
    return some.length;
  }

  // What the module imports: the functions of the C library that the programs call, and those of libgcc for numbers of 128 bits.
  functions() {
    return {
      rattle_alloc: (to, size, align) => this.block(to, this.heap.take(Number(size), Number(align))),
      rattle_realloc: (to, at, kept, size, align) => this.block(to, this.heap.move(Number(at), Number(kept), Number(size), Number(align))),
      rattle_dealloc: at => this.heap.give(Number(at)),
      rattle_arg: (number, to, room) => this.argument(number, to, room),
      rattle_errno: () => this.errno,
      rattle_set_errno: error => { this.errno = error; },
      read: (end, to, room) => this.tried(() => this.take(to, room)),
      write: (end, from, count) => this.tried(() => (this.write(end, this.bytes(from, count).slice()), count)),
      lseek: () => { this.errno = NO_SEEK; return FAILED; },
      __multi3: (to, a, b, c, d) => this.wide(to, BigInt.asUintN(128, joined(a, b) * joined(c, d))),
      __udivti3: (to, a, b, c, d) => this.wide(to, joined(a, b) / joined(c, d)),
      __ashlti3: (to, low, high, count) => this.wide(to, BigInt.asUintN(128, joined(low, high) << BigInt(count))),
      __lshrti3: (to, low, high, count) => this.wide(to, joined(low, high) >> BigInt(count)),
      __umodti3: (to, a, b, c, d) => this.wide(to, joined(a, b) % joined(c, d)),
    };
  }
}

// A run with an input in memory: its status, its output, and its messages.
function ranOn(own, program, words, input) {
  const pieces = [input], outputs = [[], [], []];
  const status = own.run(program, words, () => pieces.shift() || null, (end, bytes) => outputs[end].push(bytes));
  const [, out, said] = outputs.map(parts => {
    const whole = new Uint8Array(parts.reduce((sum, part) => sum + part.length, 0));
    parts.reduce((at, part) => (whole.set(part, at), at + part.length), 0);
    return whole;
  });
  return { status, out, said };
}

// In a worker: opens the module that the first message brings; then each message asks for runs of some programs on one input. A page may define
// what becomes of a result, as `shaped(result, run)`.
function serve() {
  let opened;
  self.onmessage = async ({ data: { module, number, input, runs } }) => {
    try {
      if (module) opened = Fintaqush.open(module);
      const own = await opened;
      const shaped = self.shaped || (result => result);
      if (runs) self.postMessage({ number, results: runs.map(run => shaped(ranOn(own, run.program, run.words, input), run)) });
    } catch (error) {
      self.postMessage({ number, error: String(error.message || error) });
    }
  };
}

// In node: runs a program with the standard files.
async function main(fs, path) {
  const [called, ...given] = process.argv.slice(1), name = path.basename(called);
  const words = PROGRAMS.includes(name) ? [name, ...given] : given;
  if (!PROGRAMS.includes(words[0])) {
    process.stderr.write(`usage: node fintaqush.js ${PROGRAMS.join('|')} [OPTION ..] < TRACE\n`);
    process.exit(64);
  }
  const wait = new Int32Array(new SharedArrayBuffer(4)), buffer = new Uint8Array(PAGE);
  const again = call => { // until a file that doesn't block has room or bytes
    for (;;)
      try {
        return call();
      } catch (error) {
        if (error.code !== 'EAGAIN') throw error;
        Atomics.wait(wait, 0, 0, 5);
      }
  };
  const read = () => {
    const count = again(() => fs.readSync(0, buffer));
    return count ? buffer.subarray(0, count) : null;
  };
  const write = (end, bytes) => {
    for (let at = 0; at < bytes.length;) at += again(() => fs.writeSync(end, bytes, at));
  };
  const own = await Fintaqush.open(fs.readFileSync(path.join(__dirname, 'fintaqush.wasm')), Number(process.env.REPLAY_MEMORY) || MOST_MIB);
  process.exitCode = own.run(words[0], words.slice(1), read, write);
}

// In node: runs the program whose name the called file has, or the first argument.
const run = () =>
  main(require('fs'), require('path')).catch(error => {
    process.stderr.write(`fintaqush.js: ${error.message}\n`);
    process.exitCode = 70;
  });

if (typeof module === 'undefined') serve();
else if (require.main === module) run();
else module.exports = { Fintaqush, PROGRAMS, ranOn, run };
