// node shown.mjs reads a JSON list of links with the heading that each is to show, opens them in Chromium, and prints the JSON list of
// the documents: each as soon as it shows its heading, or else as it is after some time.
import fs from 'node:fs';
import { open, until } from './tab.mjs';

const { value, go, close } = await open();
const documents = [];
for (const { link, heading } of JSON.parse(fs.readFileSync(0, 'utf8'))) {
  await go(link);
  await until(async () => await value("document.querySelector('#out strong')?.textContent").catch(() => '') === heading);
  documents.push(await value('document.documentElement.outerHTML'));
}
console.log(JSON.stringify(documents));
await close();
process.exit();
