// Controls a page of a headless Chromium over the DevTools protocol: `ask` sends a command, `events` lists the events, `value` evaluates
// an expression, `go` opens an address, and `close` ends the browser.
import { spawn } from 'node:child_process';
import fs from 'node:fs';
import { createRequire } from 'node:module';
import os from 'node:os';
import path from 'node:path';

// node 20.10 and later have one with --experimental-websocket, node 22 has it without. For Debian 12 it is the package node-ws.
export const Socket = globalThis.WebSocket ?? createRequire(import.meta.url)('/usr/share/nodejs/ws');

export const wait = (ms) => new Promise((done) => setTimeout(done, ms));

// Waits until `is` returns something true, and returns that; or after some seconds whatever it returned last. They are many, since a
// busy machine may be slow, and a test that passes waits for no longer than it needs.
export async function until(is, seconds = 90) {
  const end = Date.now() + 1000 * seconds;
  for (;;) {
    const found = await is();
    if (found || Date.now() > end) return found;
    await wait(100);
  }
}

// Starts a browser with a folder of its own, and fails if the browser ends before `close`. `close` removes the folder, also if the
// script fails or gets a signal.
export function begun(name, words) {
  const home = fs.mkdtempSync(path.join(os.tmpdir(), 'ksi-'));
  const browser = spawn(name, words(home), { stdio: ['ignore', 'ignore', 'pipe'], env: { ...process.env, TMPDIR: home, HOME: home } });
  let closing = false, text = '';
  browser.stderr.on('data', (d) => { text = (text + d).slice(-4000); });
  const ended = new Promise((done) => browser.on('exit', done));
  ended.then((status) => { if (!closing) throw new Error(`${name} ended with ${status}: ${text}`); });
  const close = async () => {
    closing = true;
    if (browser.kill()) await ended;
    // its processes may write for a moment after it
    fs.rmSync(home, { recursive: true, force: true, maxRetries: 20, retryDelay: 200 });
  };
  for (const event of ['uncaughtException', 'SIGINT', 'SIGTERM']) process.on(event, async (why) => { console.error(why); await close(); process.exit(1); });
  return { browser, close };
}

// Returns the DevTools address of a browser. If the browser prints no address in time, it fails.
export function addressOf(browser) {
  return new Promise((found, failed) => {
    let text = '';
    browser.stderr.on('data', (d) => { text += d; const m = text.match(/ws:\/\/\S+/); if (m) found(m[0]); });
    setTimeout(() => failed(new Error(`the browser printed no address within 300 seconds: ${text}`)), 300000).unref();
  });
}

export async function open() {
  // a container may have little shared memory
  const { browser, close } = begun('chromium', (home) => ['--headless', '--no-sandbox', '--disable-gpu', '--disable-dev-shm-usage', '--no-first-run', '--remote-debugging-port=0', `--user-data-dir=${home}`, 'about:blank']);
  const address = await addressOf(browser);
  const tabs = await (await fetch(`http://127.0.0.1:${new URL(address).port}/json`)).json();
  const socket = new Socket(tabs.find((tab) => tab.type === 'page').webSocketDebuggerUrl);
  await new Promise((opened) => { socket.onopen = opened; });
  let count = 0;
  const waiting = new Map(), events = [];
  socket.onmessage = (message) => {
    const said = JSON.parse(message.data);
    if (said.id === undefined) events.push(said); else waiting.get(said.id)?.(said);
  };
  const ask = (method, params = {}) => new Promise((done) => { const id = ++count; waiting.set(id, (said) => done(said.result ?? said)); socket.send(JSON.stringify({ id, method, params })); });
  const value = async (expression) => {
    const { result, exceptionDetails } = await ask('Runtime.evaluate', { expression, returnByValue: true, awaitPromise: true });
    if (exceptionDetails) throw new Error(exceptionDetails.exception?.description ?? exceptionDetails.text);
    return result.value;
  };
  // Opens an address in a new document, and returns after its scripts ran.
  const go = async (url) => {
    await ask('Page.navigate', { url: 'about:blank' });
    await ask('Page.navigate', { url });
    const loaded = () => value("location.href !== 'about:blank' && document.readyState === 'complete'").catch(() => false);
    if (!await until(loaded)) throw new Error(`not loaded: ${url.slice(0, 100)}`);
  };
  await ask('Page.enable');
  return { ask, events, value, go, close };
}

// Returns a link to the page that contains the three files of a folder.
export function linked(page, folder) {
  const part = (name) => fs.readFileSync(path.join(folder, name)).toString('base64url');
  return `file://${page}#d=${part('deed.txt')}&s=${part('deed.ksig')}&p=${part('publications.bin')}&dn=deed.txt&sn=deed.ksig&pn=publications.bin`;
}
