// node served.cjs BROWSER FOLDER: opens web/index.html in any browser that has --headless and --profile, and prints what it shows of the first example:
// the page is served with a script that sends that back.
'use strict';
const { spawn } = require('child_process');
const fs = require('fs');
const http = require('http');
const path = require('path');
const [, , browser, folder] = process.argv;
const own = `<script>page.shown.then(() => by('report').textContent, error => error.message).then(body => fetch('/shown', { method: 'POST', body }))</script></body>`;
const page = fs.readFileSync(path.join(__dirname, '../web/index.html'), 'utf8').replace('</body>', () => own);
const server = http.createServer((request, response) => {
  if (request.method !== 'POST') return response.writeHead(200, { 'Content-Type': 'text/html; charset=utf-8' }).end(page);
  request.on('data', text => process.stdout.write(text));
  request.on('end', () => {
    response.end();
    child.kill();
    server.close();
  });
});
let child;
server.listen(0, '127.0.0.1', () => {
  const words = ['--headless', '--no-remote', '--profile', folder, `http://127.0.0.1:${server.address().port}/`];
  child = spawn(browser, words, { stdio: 'ignore', env: { ...process.env, HOME: folder } });
  child.on('error', error => { console.log(error.message); server.close(); });
  child.on('exit', () => { server.close(); server.closeAllConnections(); });
});
