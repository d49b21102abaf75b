// Walks the pages of examples by real key presses, and compares what they say at several places with the answers of
// `simback play` to `look` at the same places. Then it tries the keys, the buttons and the mouse on the torn commit.
// node walk.mjs PROGRAM FOLDER EXAMPLE..
import { deepEqual, equal, ok } from 'node:assert/strict';
import { execFileSync } from 'node:child_process';
import { readFileSync } from 'node:fs';
import { join } from 'node:path';
import { browser } from './cdp.mjs';

const [program, folder, ...names] = process.argv.slice(2), examples = new URL('../../examples/', import.meta.url).pathname;
const b = await browser();

// What `play` answers at each place to each of its looks: a list of lines for each place.
function looksAt(name, places, hosts, probes) {
  const looks = ['look', 'look next', ...hosts.map(host => `look host ${host}`),
    ...hosts.flatMap(from => hosts.filter(to => to !== from).map(to => `look link ${from} ${to}`)),
    ...hosts.flatMap(host => probes.map(probe => `look probe ${host} ${probe}`))];
  const asked = places.flatMap(place => [`goto ${place}`, ...looks]);
  const input = readFileSync(join(examples, name + '.play'), 'utf8') + '\n' + asked.join('\n') + '\n';
  const lines = execFileSync(program, ['play'], {input}).toString().trimEnd().split('\n').slice(-asked.length);
  return places.map((_, i) => lines.slice(i * (looks.length + 1) + 1, (i + 1) * (looks.length + 1)));
}

// The same lines from what the page shows. What it does not show (how many words were drawn, the next serial) is a *.
const SAYS = `(() => {
  const text = e => e ? e.innerText.trim() : '', all = (s, e) => [...(e || document).querySelectorAll(s)];
  const {hosts, probes} = simback.data, said = (name, or) => (new RegExp('([0-9,]+|[a-z]+) ' + name).exec(text(document.querySelector('#worldSum'))) || [0, or])[1];
  const clock = /clock (\\d+) ms/.exec(text(document.querySelector('#worldSum')))[1];
  const out = ['place ' + document.querySelector('#place').value + ' clock ' + clock + ' serial * net * torn * pending ' + said('pending') + ' held ' + said('held', 0)];
  const next = document.querySelector('.pend tr');
  const what = next && text(next.cells[3]), kind = next && (/ gets /.test(what) ? 'message' : /\u2019s (\\w+) next$/.exec(what)[1]);
  out.push(next ? 'due ' + parseInt(text(next.cells[0])) + ' serial * host ' + text(next.querySelector('b')) + ' ' + kind : 'none');
  const rows = all('#hosts tbody tr').filter(r => r.querySelector('.host'));
  rows.forEach((r, h) => {
    const [state, done] = text(r.cells[1]).split(' '), disk = text(r.cells[3 + probes.length]);
    out.push(hosts[h] + ' ' + state + ' done ' + (done ? 'yes' : 'no') + ' draws * stable ' + parseInt(disk) + ' unsynced ' + (/\\+ (\\d+) unsynced/.exec(disk) || [0, 0])[1]);
  });
  const shut = all('#world .held').map(text);
  for (const from of hosts) for (const to of hosts) if (from !== to) {
    const line = shut.find(t => t.startsWith(from + ' \u2192 ' + to + ' '));
    const [, state, n] = line ? /\u2192 \\S+ (cut|held)(?: (\\d+) messages?)?/.exec(line) : [0, 'open'];
    out.push(from + ' ' + to + ' ' + state + ' messages ' + (n || 0));
  }
  rows.forEach((r, h) => probes.forEach((probe, k) => out.push(hosts[h] + ' ' + probe + ' ' + (text(r.cells[2 + k]) || 'down'))));
  return out;
})()`;
const hidden = line => line.replace(/\b(serial|net|torn|draws) \d+/g, '$1 *');

async function compare(name) {
  const p = await b.page('file://' + join(folder, name + '.html'));
  const {hosts, probes, end} = await p.evaluate('({hosts: simback.data.hosts, probes: simback.data.probes, end: simback.run.end})');
  const places = [...new Set([0, 1, 2, 3, end >> 2, end >> 1, end - (end >> 2), end - 2, end - 1, end])].filter(x => x >= 0).sort((x, y) => x - y);
  const wanted = looksAt(name, places, hosts, probes);
  for (const [i, place] of places.entries()) {
    await p.key('g'); await p.type(String(place)); await p.key('Enter');
    deepEqual(await p.evaluate(SAYS), wanted[i].map(hidden), `${name} at place ${place}`);
  }
  // Back to the start and to the end again event by event: the page says what it said before.
  const there = await p.evaluate(SAYS);
  await p.key('ArrowLeft', {times: end}); equal(await p.evaluate('simback.at()'), 0);
  deepEqual(await p.evaluate(SAYS), wanted[0].map(hidden), `${name} back at the start`);
  await p.key('ArrowRight', {times: end}); deepEqual(await p.evaluate(SAYS), there, `${name} at the end again`);
  await p.close();
  console.log(`walk: ${name}: ${places.length} of ${end + 1} places as play says`);
}

// The keys, the buttons and the mouse, on the torn commit.
async function keys() {
  const p = await b.page('file://' + join(folder, 'torn-commit.html')), at = () => p.evaluate('simback.at()');
  const text = selector => p.evaluate(`document.querySelector(${JSON.stringify(selector)}).innerText`);
  const state = name => p.evaluate(`simback.state().${name}`);
  const box = selector => p.evaluate(`(r => [r.left, r.top, r.width, r.height])(document.querySelector(${JSON.stringify(selector)}).getBoundingClientRect())`);
  const press = async selector => { const [x, y, w, h] = await box(selector); await p.click(x + w / 2, y + h / 2); };
  const after = async (key, place, what) => { await p.key(key); equal(await at(), place, what || key); };

  equal(await at(), 12, 'it opens at the end');
  await after('ArrowLeft', 11); await after('ArrowRight', 12); await after('ArrowRight', 12, 'right at the end stays');
  ok(await p.evaluate('document.querySelector("#bForward").disabled'));
  await p.sleep(250); ok((await p.evaluate('location.hash')).startsWith('#p=12'), 'the address keeps the place');
  await p.key('ArrowLeft', {times: 3}); equal(await at(), 9);
  ok((await text('#acct')).includes('torn: the first 9 bytes of 10 bytes at 0, written at 8'), 'the crash is told');
  ok((await text('#hosts tbody tr')).includes('down'), 'the host is down');
  ok(await p.evaluate('document.querySelectorAll("#hosts .ch").length >= 3'), 'what changed is marked');
  await after('Home', 0); await after('ArrowLeft', 0, 'left at the start stays'); await after('End', 12);
  await after('c', 11, 'the cause of the message'); await after('c', 10, 'the cause of the start'); await after('c', 10, 'a fault has no cause');
  await after('e', 11, 'what the bounce caused'); await after('u', 10, 'back to where the jump was made'); await after('u', 11);
  await p.key('ArrowLeft', {shift: true}); equal(await at(), 1); await p.key('ArrowRight', {shift: true}); equal(await at(), 11);
  await p.key('ArrowUp'); const first = await state('host');
  await p.key('ArrowDown'); ok(await state('host') !== first, 'down selects another host');
  while (await state('host') !== 1) await p.key('ArrowDown');
  await after('[', 7, 'the event of b before'); await after(',', 6); await after(']', 7); await after('.', 12);
  await p.key('ArrowUp'); await p.key('d');
  ok((await text('.dump')).replace(/\s+/g, ' ').includes('0 01 00 00 00 00 00 00 00 01'), 'the bytes on the disk of a');
  await p.key('d'); ok(await p.evaluate('!document.querySelector(".dump")'));
  await p.key('?'); ok(await p.evaluate('document.querySelector("#help").open')); await after('ArrowLeft', 12, 'no key works under the help');
  await p.key('Escape'); await p.key('i'); ok((await text('#about pre')).includes('protocol = "two_phase"')); await p.key('Escape');
  await p.key('/'); await p.type('vote'); equal(await text('#hits'), '2 of 12');
  await after('Enter', 7, 'the next match'); await after('Enter', 8); await p.key('Escape'); equal(await text('#hits'), '');
  await p.key('t'); equal(await state('mode'), 'clock'); await p.key('t');
  const pitch = await state('pitch'); await p.key('-'); ok(await state('pitch') < pitch); await p.key('0'); await p.key('0');

  for (const [id, place] of [['bStart', 0], ['bForward', 1], ['bEnd', 12], ['bBack', 11], ['bCause', 10], ['bEffect', 11]]) { await press('#' + id); equal(await at(), place, id); }
  await press('.row[data-place="8"]'); equal(await at(), 8, 'a click on a row');
  await press('#acct > div:not(.note) .go'); equal(await at(), 7, 'a click on the place that the message was sent at');
  const mark = await p.evaluate(`(() => { const t = [...document.querySelectorAll('#base text.lab')].find(x => x.textContent === 'Prepare(1)').getBoundingClientRect(); return [t.left + t.width / 2, t.top - 8]; })()`);
  await p.click(...mark); equal(await at(), 6, 'a click on an event'); equal(await state('host'), 1, 'selects its host');
  await p.hover(...mark); ok((await text('#tip')).includes('b gets Prepare(1) from a'));
  const [x, y, w, h] = await box('#slider');
  await p.click(x + w * 4 / 12, y + h / 2); equal(await at(), 4, 'a click on the strip'); await after('ArrowRight', 5, 'an arrow with the strip in focus');
  const again = await p.evaluate('simback.inputTo(9)');
  ok(execFileSync(program, ['play'], {input: again}).toString().endsWith('place 9 clock 40\n'), 'the copied input leads to the place');
  await p.close();
  console.log('walk: keys, buttons and the mouse');
}

for (const name of names) await compare(name);
await keys();
deepEqual(b.logs.filter(text => !text.startsWith('request: file:')), [], 'nothing is logged, nothing but the file is asked for');
await b.close();
