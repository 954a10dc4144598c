// Reads captures, and makes a trace or arrivals of all their packets, as `fintaqush from-pcap --one-device -Q inout` does.
const ORDERS = { 0xd4c3b2a1: [true, 1000n], 0xa1b2c3d4: [false, 1000n], 0x4d3cb2a1: [true, 1n], 0xa1b23c4d: [false, 1n] };
const NG = 0x0a0d0d0a, BYTE_ORDER = 0x1a2b3c4d, MOST_ROWS = 100000;

const isCapture = bytes => bytes.length > 23 && (ORDERS[viewOf(bytes).getUint32(0)] !== undefined || viewOf(bytes).getUint32(0) === NG);
const viewOf = bytes => new DataView(bytes.buffer, bytes.byteOffset, bytes.byteLength);

// Yields the time in ns and the length of each packet.
function* packetsIn(bytes) {
  const view = viewOf(bytes), first = view.getUint32(0);
  if (first === NG) return yield* packetsInNg(view);
  const [little, tick] = ORDERS[first];
  for (let at = 24; at + 16 <= bytes.length;) {
    const word = place => view.getUint32(at + 4 * place, little);
    if (at + 16 + word(2) > bytes.length) return; // it is cut
    yield [BigInt(word(0)) * 1000000000n + BigInt(word(1)) * tick, word(3)];
    at += 16 + word(2);
  }
}

function* packetsInNg(view) {
  let little = true, ticks = [];
  for (let at = 0; at + 12 <= view.byteLength;) {
    const kind = view.getUint32(at, little);
    if (kind === NG) [little, ticks] = [view.getUint32(at + 8, true) === BYTE_ORDER, []];
    const size = view.getUint32(at + 4, little), word = place => view.getUint32(at + 8 + 4 * place, little);
    if (size < 12 || kind === 1 && size < 20 || kind === 6 && size < 32 || at + size > view.byteLength) return; // it is cut
    if (kind === 1) ticks.push(ticksOf(view, at + 16, at + size - 4, little));
    if (kind === 6 && !ticks[word(0)]) throw new Error(`its packet at byte ${at} names an interface that it doesn't describe`);
    if (kind === 6) yield [(BigInt(word(1)) << 32n | BigInt(word(2))) * 1000000000n / ticks[word(0)], word(4)];
    at += size;
  }
}

function ticksOf(view, at, end, little) {
  for (; at + 4 <= end; at += 4 + Math.ceil(view.getUint16(at + 2, little) / 4) * 4)
    if (view.getUint16(at, little) === 9) {
      const value = view.getUint8(at + 4);
      return value & 128 ? 2n ** BigInt(value & 127) : 10n ** BigInt(value);
    }
  return 1000000n;
}

// The packets of a capture by their times, from 0.
function arrivalsOf(bytes) {
  const packets = [...packetsIn(bytes)].filter(([, length]) => length > 0 && length < 65536).sort((one, other) => one[0] < other[0] ? -1 : one[0] > other[0] ? 1 : 0);
  if (!packets.length) throw new Error('no packet arrives in it');
  return packets.map(([time, length]) => [Number(time - packets[0][0]), length]);
}

// A trace: the packets at one device, and a run `delay` ms after the first packet that waits.
function traceOf(arrivals, delay = 1, capacity = 256) {
  const lines = ['moment,device,event,value', `0,1,open,${capacity}`];
  let run = null;
  for (const [ns, length] of arrivals) {
    const moment = Math.floor(ns / 1e6);
    if (run !== null && run < moment) { lines.push(`${run},0,softirq,0`); run = null; }
    lines.push(`${moment},1,rx,${length}`);
    run ??= moment + delay;
  }
  lines.push(`${run},0,softirq,0`);
  if (lines.length > MOST_ROWS + 1) throw new Error(`${lines.length - 1} rows, and a trace has at most ${MOST_ROWS}: take a part of the capture`);
  return new TextEncoder().encode(lines.join('\n') + '\n');
}

const arrivalsText = arrivals => new TextEncoder().encode(['ns,device,bytes', ...arrivals.map(([ns, length]) => `${ns},1,${length}`)].join('\n') + '\n');
