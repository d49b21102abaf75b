// A small client for the DevTools protocol of a chromium that it starts itself: opens pages, presses keys, moves the
// mouse. It needs node with WebSocket: node 22, or node 20 with --experimental-websocket.
import { spawn } from 'node:child_process';
import { mkdtempSync, rmSync, writeFileSync } from 'node:fs';
import { tmpdir } from 'node:os';
import { join } from 'node:path';

const CODES = {ArrowLeft: 37, ArrowUp: 38, ArrowRight: 39, ArrowDown: 40, Home: 36, End: 35, PageUp: 33, PageDown: 34,
  Escape: 27, Enter: 13, Tab: 9};
const sleep = ms => new Promise(done => setTimeout(done, ms));

// Starts chromium, with a profile of its own in a temporary folder, and resolves to its address.
async function start(profile) {
  const flags = ['--headless=new', '--no-sandbox', '--disable-gpu', '--remote-debugging-port=0', '--user-data-dir=' + profile];
  const child = spawn('chromium', [...flags, 'about:blank'], {stdio: ['ignore', 'ignore', 'pipe']});
  process.on('exit', () => child.kill());                  // also where a test fails
  const address = await new Promise((yes, no) => {
    let said = '';
    setTimeout(() => no(new Error('chromium did not start: ' + said)), 60000).unref();
    child.on('error', no);
    child.stderr.on('data', text => {
      said += text;
      const found = /DevTools listening on (ws:\S+)/.exec(said);
      if (found) yes(found[1]);
    });
  });
  return {child, address};
}

// A browser with page(url, options), logs (what a page logs, throws or asks the network for), and close().
export async function browser() {
  const profile = mkdtempSync(join(tmpdir(), 'simback-page-')), {child, address} = await start(profile);
  const socket = new WebSocket(address), waiting = new Map(), logs = [];
  await new Promise((yes, no) => { socket.onopen = yes; socket.onerror = no; });
  socket.onmessage = message => {
    const {id, error, result, method, params} = JSON.parse(message.data);
    if (id) {
      const [yes, no] = waiting.get(id);
      waiting.delete(id);
      if (error) no(new Error(JSON.stringify(error))); else yes(result);
    } else if (method === 'Runtime.exceptionThrown') logs.push('exception: ' + (params.exceptionDetails.exception?.description || params.exceptionDetails.text));
    else if (method === 'Runtime.consoleAPICalled') logs.push('console: ' + params.args.map(a => a.value ?? a.description).join(' '));
    else if (method === 'Log.entryAdded') logs.push('log: ' + params.entry.text);
    else if (method === 'Network.requestWillBeSent') logs.push('request: ' + params.request.url);
    else if (method === 'Page.javascriptDialogOpening') logs.push('dialog: ' + params.message);
  };
  let last = 0;
  const call = (method, params = {}, sessionId) => new Promise((yes, no) => {
    waiting.set(++last, [yes, no]);
    socket.send(JSON.stringify({id: last, method, params, sessionId}));
  });

  async function page(url, {width = 1440, height = 900, dark = false} = {}) {
    const {targetId} = await call('Target.createTarget', {url: 'about:blank'});
    const {sessionId} = await call('Target.attachToTarget', {targetId, flatten: true});
    const send = (method, params) => call(method, params, sessionId);
    for (const domain of ['Page', 'Runtime', 'Log', 'Network']) await send(domain + '.enable');
    await send('Emulation.setDeviceMetricsOverride', {width, height, deviceScaleFactor: 1, mobile: false});
    await send('Emulation.setEmulatedMedia', {features: [{name: 'prefers-color-scheme', value: dark ? 'dark' : 'light'}]});

    async function evaluate(expression) {
      const {result, exceptionDetails: fault} = await send('Runtime.evaluate', {expression, returnByValue: true, awaitPromise: true});
      if (fault) throw new Error(fault.exception?.description || fault.text);
      return result.value;
    }
    async function open(to) {
      await send('Page.navigate', {url: to});
      const ready = 'document.readyState === "complete" && (!!window.simback || !!document.querySelector(".oops"))';
      for (let i = 0; i < 400 && !await evaluate(ready).catch(() => false); i++) await sleep(25);
      await sleep(120);
    }
    async function key(name, {shift = false, times = 1, settle = 60} = {}) {
      const code = CODES[name] || name.toUpperCase().charCodeAt(0), text = CODES[name] ? (name === 'Enter' ? '\r' : undefined) : name;
      const both = {key: name, code: CODES[name] ? name : undefined, windowsVirtualKeyCode: code, modifiers: shift || /^[A-Z?+]$/.test(name) ? 8 : 0};
      for (let i = 0; i < times; i++) {
        await send('Input.dispatchKeyEvent', {...both, type: text ? 'keyDown' : 'rawKeyDown', text});
        await send('Input.dispatchKeyEvent', {...both, type: 'keyUp'});
      }
      await sleep(settle);
    }
    async function type(text) {
      for (const character of text) await key(character, {settle: 5});
      await sleep(60);
    }
    const mouse = (type, x, y, more) => send('Input.dispatchMouseEvent', {type, x, y, ...more});
    const hold = {button: 'left', buttons: 1, clickCount: 1};
    async function click(x, y) {
      await mouse('mouseMoved', x, y); await mouse('mousePressed', x, y, hold); await mouse('mouseReleased', x, y, hold);
      await sleep(80);
    }
    async function hover(x, y) { await mouse('mouseMoved', x, y); await sleep(80); }
    async function drag(x, y, toX, toY) {
      await mouse('mouseMoved', x, y); await mouse('mousePressed', x, y, hold);
      for (let i = 1; i <= 6; i++) await mouse('mouseMoved', x + (toX - x) * i / 6, y + (toY - y) * i / 6, hold);
      await mouse('mouseReleased', toX, toY, hold);
      await sleep(80);
    }
    const shot = async file => writeFileSync(file, Buffer.from((await send('Page.captureScreenshot', {format: 'png'})).data, 'base64'));
    const close = () => call('Target.closeTarget', {targetId});
    await open(url);
    return {send, open, evaluate, key, type, click, hover, drag, shot, close, sleep};
  }
  async function close() {
    const gone = new Promise(done => child.once('exit', done));
    await call('Browser.close').catch(() => {});
    await Promise.race([gone, sleep(4000)]);
    child.kill();
    try { rmSync(profile, {recursive: true, force: true, maxRetries: 8, retryDelay: 200}); } catch { /* it is a temporary folder */ }
  }
  return {page, close, logs};
}
