// A browser without a window, driven through its pipe: `const tab = await open(chromium, folder, url)`, then `await tab.run(EXPRESSION)` returns the
// value of an expression in the page, and `tab.errors` has what the page threw.
'use strict';
const { spawn } = require('child_process');

async function open(browser, folder, url, wide = 1200, high = 900) {
  const words = ['--headless=new', '--no-sandbox', '--disable-gpu', '--disable-dev-shm-usage', '--hide-scrollbars', `--user-data-dir=${folder}`, '--remote-debugging-pipe', `--window-size=${wide},${high}`, 'about:blank'];
  const child = spawn(browser, words, { stdio: ['ignore', 'ignore', 'ignore', 'pipe', 'pipe'], env: { ...process.env, HOME: folder } });
  const asked = new Map(), loads = new Set(), errors = [];
  let text = '', count = 0, session, heard = () => {};
  const ended = (status, signal) => { console.log(`${browser} ended, ${signal || `status ${status}`}`); process.exit(1); };
  child.on('exit', ended);
  for (const pipe of child.stdio.slice(3)) pipe.on('error', () => {}); // it has ended then
  child.stdio[4].setEncoding('utf8').on('data', some => {
    const parts = (text + some).split('\0');
    text = parts.pop();
    for (const { id, method, params, result, error } of parts.map(JSON.parse)) {
      if (asked.has(id)) asked.get(id)(error ? { error } : result);
      if (method === 'Runtime.exceptionThrown') errors.push(params.exceptionDetails.exception?.description || params.exceptionDetails.text);
      if (method === 'Page.lifecycleEvent' && params.name === 'load') loads.add(params.loaderId);
      heard();
    }
  });
  const ask = (method, params = {}) => new Promise(done => {
    asked.set(++count, done);
    child.stdio[3].write(JSON.stringify({ id: count, method, params, ...(session && { sessionId: session }) }) + '\0');
  });
  const { targetId } = await ask('Target.createTarget', { url: 'about:blank' });
  ({ sessionId: session } = await ask('Target.attachToTarget', { targetId, flatten: true }));
  await ask('Page.enable');
  await ask('Runtime.enable');
  await ask('Emulation.setDeviceMetricsOverride', { width: wide, height: high, deviceScaleFactor: 1, mobile: wide < 600 });
  await ask('Page.setLifecycleEventsEnabled', { enabled: true });
  const { loaderId } = await ask('Page.navigate', { url }); // the first page, which is empty, may still be loading
  while (!loads.has(loaderId)) await new Promise(done => { heard = done; });
  const run = async expression => {
    const { result, exceptionDetails, error } = await ask('Runtime.evaluate', { expression, awaitPromise: true, returnByValue: true });
    if (error || exceptionDetails) throw new Error(error?.message || exceptionDetails.exception?.description || exceptionDetails.text);
    return result.value;
  };
  const picture = async () => Buffer.from((await ask('Page.captureScreenshot', { format: 'png' })).data, 'base64');
  const close = () => new Promise(done => { child.off('exit', ended).on('exit', done).kill(); });
  return { ask, run, picture, errors, close };
}

module.exports = { open };
