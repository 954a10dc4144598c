// node recordings.cjs FILE ..: converts recordings by the code in web/index.html, and prints for each file a line of JSON: what becomes of a trace and of
// arrivals, as { text } or { error }, and how many seconds of processor time that took.
'use strict';
const fs = require('fs');
const path = require('path');
const vm = require('vm');
const page = fs.readFileSync(path.join(__dirname, '../web/index.html'), 'utf8');
const [, code] = page.match(/<script id="recording" type="text\/plain">([^]*?)<\/script>/), [, data] = page.match(/^const page = new Page\({ own: OWN, \.\.\.(.*) }\);$/m);
vm.runInThisContext(`const KNOWN = ${JSON.stringify(JSON.parse(data).known)};\n${code}`);

for (const file of process.argv.slice(2)) {
  const bytes = new Uint8Array(fs.readFileSync(file));
  const made = [false, true].map(isArrivals => {
    const since = process.cpuUsage();
    let result;
    try {
      [result] = [{ text: convert(bytes, isArrivals)[0] }];
    } catch (error) {
      result = { error: error.message, isOurs: error.constructor === Error };
    }
    const { user, system } = process.cpuUsage(since);
    return { ...result, seconds: (user + system) / 1e6 };
  });
  console.log(JSON.stringify(made));
}
