// node looks.mjs PAGE FOLDER [PICTURES] tests the look of the page with the three files of FOLDER: in windows of
// three sizes, light and dark, with the keyboard alone, and in the accessibility tree. It saves screenshots to PICTURES. Needs Chromium.
import fs from 'node:fs';
import path from 'node:path';
import { linked, open, until } from './tab.mjs';

const [page, folder, pictures] = process.argv.slice(2).map((p) => path.resolve(p));
const { ask, events, value, go, close } = await open();
const wrong = (what) => { console.log(what); process.exitCode = 1; };
const same = (what, is, wanted) => { if (JSON.stringify(is) !== JSON.stringify(wanted)) wrong(`${what}: ${JSON.stringify(is)}, and not ${JSON.stringify(wanted)}`); };

// Lists visible texts with too little contrast to their background, and elements that cross the window's edge and cannot be scrolled
// to.
const LOOK = `(() => {
  const part = (c) => { c /= 255; return c <= 0.04045 ? c / 12.92 : ((c + 0.055) / 1.055) ** 2.4; };
  const light = ([r, g, b]) => 0.2126 * part(r) + 0.7152 * part(g) + 0.0722 * part(b);
  const numbers = (text) => (text.match(/[\\d.]+/g) ?? []).map(Number);
  const behind = (it) => { for (; it; it = it.parentElement) { const c = numbers(getComputedStyle(it).backgroundColor); if (c.length === 3 || c[3] > 0) return c; } return matchMedia('(prefers-color-scheme: dark)').matches ? [18, 18, 18] : [255, 255, 255]; };
  const pale = [], cut = [];
  for (const it of document.querySelectorAll('body *')) {
    const own = [...it.childNodes].some((node) => node.nodeType === 3 && node.data.trim());
    const box = it.getBoundingClientRect();
    if (!own || !box.width || !box.height || ['SCRIPT', 'STYLE', 'title'].includes(it.tagName)) continue;
    const style = getComputedStyle(it), svg = it.ownerSVGElement;
    const below = svg ? numbers(getComputedStyle(it.previousElementSibling?.tagName === 'rect' ? it.previousElementSibling : document.querySelector('svg rect.group')).fill) : behind(it);
    const [a, b] = [light(numbers(svg ? style.fill : style.color)), light(below)].sort((x, y) => y - x), ratio = (a + 0.05) / (b + 0.05);
    if (ratio < 4.5) pale.push(it.textContent.trim().slice(0, 30) + ' ' + ratio.toFixed(2));
    const edge = svg?.getBoundingClientRect() ?? { left: 0, right: innerWidth };
    if (!it.closest('.wide') && (box.right > edge.right + 1 || box.left < edge.left - 1)) cut.push(it.textContent.trim().slice(0, 30));
  }
  return { pale, cut, sideways: document.documentElement.scrollWidth > innerWidth };
})()`;

async function show() {
  await go(linked(page, folder));
  if (!await until(() => value("document.querySelectorAll('svg rect.good').length").catch(() => 0))) throw new Error('the page draws no accepted signature');
}

const sizes = [[360, 740], [768, 1024], [1280, 900]];
for (const [width, height] of sizes)
  for (const scheme of ['light', 'dark']) {
    await ask('Emulation.setDeviceMetricsOverride', { width, height, deviceScaleFactor: 1, mobile: width < 600 });
    await ask('Emulation.setEmulatedMedia', { features: [{ name: 'prefers-color-scheme', value: scheme }] });
    await show();
    await value("document.querySelectorAll('details').forEach((it) => { it.open = true; })");
    same(`${width} wide, ${scheme}`, await value(LOOK), { pale: [], cut: [], sideways: false });
    if (pictures) {
      fs.mkdirSync(pictures, { recursive: true });
      for (const shut of [false, true]) {
        await value(`document.querySelector('#way details').open = ${!shut}`);
        const { data } = await ask('Page.captureScreenshot', { captureBeyondViewport: !shut, ...(shut ? {} : { clip: { x: 0, y: 0, width, height: Math.min(4000, await value('document.documentElement.scrollHeight')), scale: 1 } }) });
        fs.writeFileSync(path.join(pictures, `${width}-${scheme}${shut ? '' : '-all'}.png`), Buffer.from(data, 'base64'));
      }
    }
  }

// ---- the keyboard alone
const press = async (key, code, text) => { for (const type of ['keyDown', 'keyUp']) await ask('Input.dispatchKeyEvent', { type, key, code: key, windowsVirtualKeyCode: code, nativeVirtualKeyCode: code, ...(text && type === 'keyDown' ? { text } : {}) }); };
await show();
const order = [];
for (let k = 0; k < 8; k++) {
  await press('Tab', 9);
  order.push(await value("(document.activeElement.id || [document.activeElement.tagName.toLowerCase(), document.activeElement.parentElement.id].filter(Boolean).join(' of '))"));
  if (order[k] === 'summary') await press('Enter', 13, '\r');
}
same('tab order', order, ['document', 'signature', 'publications', 'mirror', 'summary of by-print', 'summary', 'table', 'paper']);
same('Enter opens the table', await value("document.querySelector('#way details').open"), true);
await ask('Page.setInterceptFileChooserDialog', { enabled: true });
await value("document.querySelector('#document').focus()");
await press('Enter', 13, '\r');
same('Enter asks for a file', await until(() => events.some((it) => it.method === 'Page.fileChooserOpened')), true);

// ---- a screen reader
const { nodes } = await ask('Accessibility.getFullAXTree');
const heard = nodes.filter((it) => !it.ignored).map((it) => ({ role: it.role?.value, name: it.name?.value ?? '', is: Object.fromEntries((it.properties ?? []).map((p) => [p.name, p.value.value])) }));
const names = (role) => heard.filter((it) => it.role === role).map((it) => it.name);
same('headings', names('heading'), ['When did this document exist?']);
same('main part', names('main').length, 1);
const inputs = heard.filter((it) => it.is.focusable && /^\d · /.test(it.name)).map((it) => it.name.replace(/,.*/, ''));
same('files', inputs.map((it) => it.slice(0, 5)), ['1 · D', '2 · S', '3 · P', '4 · A']);
for (const it of heard) if (it.is.focusable && !it.name && !['RootWebArea', 'generic'].includes(it.role)) wrong(`a ${it.role} has no name`);
same('live', heard.filter((it) => it.role === 'status').map((it) => it.is.live), ['polite']);
same('picture', heard.filter((it) => it.role === 'image' || it.role === 'img').map((it) => it.name.slice(0, 22)), ['The path of hashes: 32']);
same('columns', names('columnheader').slice(0, 5), ['Link', 'Hash from below', 'Other part is', 'Other part', 'Join of both']);
same('links', heard.filter((it) => it.role === 'rowheader' && /^\d+$/.test(it.name)).length, 32);
console.log(process.exitCode ? 'not as wanted' : `${sizes.length} sizes of window, light and dark, the keyboard alone, ${heard.length} nodes of a screen reader's tree: as wanted`);
await close();
process.exit();
