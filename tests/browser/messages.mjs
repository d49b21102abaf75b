// The page of a run that a program wrote, of hosts whose messages and roles show themselves by texts that would leave their
// places if they could (messages.sed). At each place the page shows the very texts, and runs nothing.
// node messages.mjs PAGE TITLE [PNG]
import { deepEqual, equal, ok } from 'node:assert/strict';
import { resolve } from 'node:path';
import { browser } from './cdp.mjs';
import { unhurt } from './unhurt.mjs';

const [page, title, png] = process.argv.slice(2), b = await browser(), p = await b.page('file://' + resolve(page));
const add = n => `</script><script>document.title = 'owned'</script><img src=x onerror=alert(${n})>`;
const added = n => `<!-- " ' \` \\ &lt; \u2028\u2029 \${n} --></title><h1>${n}`;
const client = n => `</pre><script>alert(${n})</script><!--`;
const idle = n => `"></option></select><iframe src='file:///etc/passwd'>${n}`;
const saving = n => `javascript:alert(${n})\u2028\u2029' onload="x`;
const text = selector => p.evaluate(`document.querySelector(${JSON.stringify(selector)}).textContent`);
const states = () => p.evaluate(`[...document.querySelectorAll('#hosts .state')].map(e => e.textContent)`);

// The hosts are the server a and the clients w, of two operations, and x, of one.
const arrivals = [1, 2].flatMap(n => [`a gets ${add(n)} from w`, `w gets ${added(n)} from a`])
  .concat([`a gets ${add(1)} from x`, `x gets ${added(1)} from a`]);
const roles = [0, 1, 2, 3].map(idle).concat([1, 2].map(saving), [0, 1, 2, 3].map(client));

equal(await text('#title'), title);
await p.key('Home');
const end = await p.evaluate('simback.run.end'), came = new Set(), was = new Set();
for (let place = 0; place <= end; place++) {
  equal(await p.evaluate('simback.at()'), place);
  await unhurt(p, title, 'at place ' + place);
  const told = await text('#acct h3');
  if (told.includes(' gets ')) { ok(arrivals.includes(told), told); came.add(told); }
  for (const state of await states()) { ok(roles.includes(state), state); was.add(state); }
  await p.key('ArrowRight', {settle: 40});
}
deepEqual([...came].sort(), [...arrivals].sort(), 'each message is shown as it is');
for (const kind of [client, idle, saving]) ok(was.has(kind(1)), 'each role is shown as it is: ' + kind(1));
const rows = await p.evaluate(`[...document.querySelectorAll('#rows .ti')].map(e => e.textContent)`);
ok(rows.some(row => arrivals.includes(row)), 'the rows too');
await p.key('/'); await p.type('onerror'); await unhurt(p, title, 'with a filter'); await p.key('Escape');
await p.key('Home'); for (let i = 0; i < 5; i++) await p.key('ArrowRight');
if (png) await p.shot(png);
deepEqual(b.logs.filter(text => !text.startsWith('request: file:')), [], 'nothing is logged, nothing but the file is asked for');
await b.close();
console.log(`messages: ${came.size} messages and ${was.size} roles as they are, at ${end + 1} places`);
