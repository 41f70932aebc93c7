// node firefox.mjs PAGE FOLDER [PICTURES] tests the page in Firefox over WebDriver BiDi: files in a link and files
// that are chosen.
import fs from 'node:fs';
import path from 'node:path';
import { addressOf, begun, linked, Socket, until } from './tab.mjs';

const [page, folder, pictures] = process.argv.slice(2).map((p) => path.resolve(p));
const name = ['firefox', 'firefox-esr'].find((it) => process.env.PATH.split(':').some((at) => fs.existsSync(path.join(at, it))));
const { browser, close } = begun(name, (home) => ['--headless', '--no-remote', '--profile', home, '--remote-debugging-port', '0', '--width', '1000', '--height', '900', 'about:blank']);
const address = await addressOf(browser);
const socket = new Socket(`${address}/session`);
await new Promise((opened) => { socket.onopen = opened; });
let count = 0;
const waiting = new Map();
socket.onmessage = (message) => { const said = JSON.parse(message.data); waiting.get(said.id)?.(said); };
const ask = (method, params = {}) => new Promise((done, failed) => { const id = ++count; waiting.set(id, (said) => said.type === 'error' ? failed(new Error(`${method}: ${said.message}`)) : done(said.result)); socket.send(JSON.stringify({ id, method, params })); });

const { capabilities } = await ask('session.new', { capabilities: {} });
const { contexts: [{ context }] } = await ask('browsingContext.getTree', {});
const evaluate = async (expression) => (await ask('script.evaluate', { expression, target: { context }, awaitPromise: true })).result;
const say = async () => (await evaluate("document.querySelector('#out strong').textContent + ' | ' + document.querySelectorAll('rect.ours, rect.good').length")).value;
const wanted = async (text) => {
  let shown;
  if (await until(async () => (shown = await say().catch(() => '')) === text)) return;
  console.log(`${shown}, and not ${text}`);
  process.exitCode = 1;
};

await ask('browsingContext.navigate', { context, url: linked(page, folder), wait: 'complete' });
await wanted('Recorded in second 2023-11-14T22:13:20Z | 34');
if (pictures) {
  fs.mkdirSync(pictures, { recursive: true });
  fs.writeFileSync(path.join(pictures, 'firefox.png'), Buffer.from((await ask('browsingContext.captureScreenshot', { context })).data, 'base64'));
}
await ask('browsingContext.navigate', { context, url: linked(page, folder).replace(/#d=[^&]*/, '#d=b3RoZXI'), wait: 'none' });
await wanted('Not shown | 33');
await ask('browsingContext.navigate', { context, url: `file://${page}`, wait: 'complete' });
const choose = async (input, file) => {
  const element = await evaluate(`document.querySelector('#${input}')`);
  await ask('input.setFiles', { context, element: { sharedId: element.sharedId }, files: [path.join(folder, file)] });
};
await choose('document', 'deed.txt');
await choose('signature', 'deed.ksig');
await choose('publications', 'publications.bin');
await wanted('Recorded in second 2023-11-14T22:13:20Z | 34');
await choose('document', 'deed.ksig');
await wanted('Not shown | 33');
console.log(process.exitCode ? 'not as wanted' : `${capabilities.browserName} ${capabilities.browserVersion}: files in a link and files chosen are answered`);
await ask('browser.close').catch(() => {});
await close();
process.exit();
