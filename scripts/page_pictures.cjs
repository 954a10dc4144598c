#!/usr/bin/env node
// node page_pictures.cjs BROWSER: draws web/steps.png and web/machine.png, the page's views as docs/NAPI.md shows them, and the charts in
// README.md and examples/README.md.
'use strict';
const fs = require('fs');
const os = require('os');
const path = require('path');
const { open } = require('../tests/browser.cjs');
const web = path.join(__dirname, '../web');
const VIEWS = {
  machine: [560, 'view=machine&show=Interrupt+coalescing'],
  steps: [880, 'view=steps&example=two-queues&budget=1&weight=1&budget2=300&raise=1&row=9'],
};
const CHARTS = {
  'web/replay': 'view=replay&example=linux-veth-small-budget&budget=64&from=70&to=345',
  'examples/queue-limit': 'view=replay&example=linux-virtio-limits&from=0&to=38064',
  'examples/squeeze': 'view=replay&example=linux-veth-small-budget&budget=64&budget2=300&raise=1&from=70&to=130',
};

// Opens the page in a window of this size, and returns what it shows there once it has drawn all.
async function drawn(link, high, take) {
  const folder = fs.mkdtempSync(path.join(os.tmpdir(), 'page')), tab = await open(process.argv[2], folder, `file://${web}/index.html#${link}`, 1100, high);
  await tab.run('page.shown.then(() => page.settled()).then(() => { by("told").textContent = ""; })');
  const bytes = await take(tab);
  await tab.close();
  fs.rmSync(folder, { recursive: true });
  return bytes;
}

(async () => {
  for (const [view, [high, link]] of Object.entries(VIEWS)) fs.writeFileSync(`${web}/${view}.png`, await drawn(link, high, tab => tab.picture()));
  for (const [name, link] of Object.entries(CHARTS)) {
    const url = await drawn(link, 900, tab => tab.run(`by('chart').toDataURL()`));
    fs.writeFileSync(`${web}/../${name}.png`, Buffer.from(url.split(',')[1], 'base64'));
  }
})();
