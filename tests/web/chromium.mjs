// A headless Chromium with one page, driven over a pipe: what the tests ask of it.
import { spawn } from 'node:child_process';
import { mkdtempSync, rmSync, writeFileSync } from 'node:fs';
import { tmpdir } from 'node:os';
import { join } from 'node:path';

const FLAGS = ['--headless=new', '--no-sandbox', '--disable-gpu', '--no-first-run', '--remote-debugging-pipe'];
const STDIO = ['ignore', 'ignore', 'ignore', 'pipe', 'pipe'];

// Starts the browser: `tell` sends a command of its protocol to the page, `events` are those that came.
export const chromium = async () => {
  const folder = mkdtempSync(join(tmpdir(), 'pundaliket-')), waiting = new Map(), events = [];
  const browser = spawn('chromium', [...FLAGS, `--user-data-dir=${folder}`, 'about:blank'], { stdio: STDIO });
  let last = 0, rest = '';
  browser.stdio[4].on('data', data => {
    const parts = (rest + data).split('\0');
    rest = parts.pop();
    for (const part of parts.map(text => JSON.parse(text))) {
      if (!part.id) events.push(part);
      else waiting.get(part.id)(part);
    }
  });
  const send = (method, params = {}, sessionId = undefined) => new Promise((done, failed) => {
    waiting.set(++last, ({ error, result }) => error ? failed(Error(`${method}: ${error.message}`)) : done(result));
    browser.stdio[3].write(JSON.stringify({ id: last, method, params, sessionId }) + '\0');
  });
  const { targetId } = await send('Target.createTarget', { url: 'about:blank' });
  const { sessionId } = await send('Target.attachToTarget', { targetId, flatten: true });
  const tell = (method, params) => send(method, params, sessionId);
  for (const part of ['Page', 'Runtime', 'Log', 'Network', 'DOM']) await tell(`${part}.enable`);
  await send('Browser.setDownloadBehavior', { behavior: 'allow', downloadPath: folder });
  const product = (await send('Browser.getVersion')).product;
  const close = async () => {
    await send('Browser.close').catch(() => {});
    await new Promise(done => { browser.on('exit', done); setTimeout(done, 3000); });
    rmSync(folder, { recursive: true, force: true });
  };
  return { ...acts(tell), tell, events, folder, product, close };
};

// What is done with the page: scripts run in it, files given to it, pictures taken of it.
const acts = tell => {
  const js = async expression => {
    const how = { awaitPromise: true, returnByValue: true };
    const { result, exceptionDetails } = await tell('Runtime.evaluate', { expression, ...how });
    if (exceptionDetails) throw Error(`${expression.slice(0, 80)}: ${exceptionDetails.exception.description}`);
    return result.value;
  };
  const until = async (expression, what = expression) => {
    for (let i = 0; i < 800; i++) {
      if (await js(expression)) return;
      await new Promise(next => setTimeout(next, 25));
    }
    throw Error(`waited for ${what}`);
  };
  const size = (width, height, mobile = false) =>
    tell('Emulation.setDeviceMetricsOverride', { width, height, deviceScaleFactor: 1, mobile });
  const open = async url => {
    await tell('Page.navigate', { url });
    await until("document.body && document.readyState === 'complete' && location.protocol === 'file:'");
  };
  const picture = async (path, whole = false) => {
    const { data } = await tell('Page.captureScreenshot', { format: 'png', captureBeyondViewport: whole });
    writeFileSync(path, Buffer.from(data, 'base64'));
  };
  const paper = async path => {
    const { data } = await tell('Page.printToPDF', { landscape: true, printBackground: false });
    writeFileSync(path, Buffer.from(data, 'base64'));
  };
  const choose = async (selector, path) => {
    const { root } = await tell('DOM.getDocument');
    const { nodeId } = await tell('DOM.querySelector', { nodeId: root.nodeId, selector });
    await tell('DOM.setFileInputFiles', { nodeId, files: [path] });
  };
  return { js, until, size, open, picture, paper, choose };
};
