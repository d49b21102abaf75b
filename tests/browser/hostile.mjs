// A page whose title, names, messages, states and notes would leave their places if they could: hostile.json, put into
// the template as the program does it. Every text must stand in the page as text, and nothing else may happen.
import { deepEqual, equal, ok } from 'node:assert/strict';
import { readFileSync, writeFileSync } from 'node:fs';
import { join } from 'node:path';
import { browser } from './cdp.mjs';
import { unhurt as pageUnhurt } from './unhurt.mjs';

const here = new URL('.', import.meta.url).pathname, [folder] = process.argv.slice(2);
const data = JSON.parse(readFileSync(here + 'hostile.json', 'utf8'));
const template = readFileSync(here + '../../page/template.html', 'utf8'), file = join(folder, 'hostile.html');
const put = text => writeFileSync(file, template.replace('@@RUN@@', () => text));
put(JSON.stringify(data).replaceAll('<', '\\u003c'));

const b = await browser(), p = await b.page('file://' + file);
const texts = selector => p.evaluate(`[...document.querySelectorAll(${JSON.stringify(selector)})].map(e => e.textContent)`);
const unhurt = where => pageUnhurt(p, data.title, where);

// Each text stands where it belongs, as it is.
deepEqual(await texts('#title'), [data.title]);
deepEqual(await texts('#names .n bdi'), data.hosts);
deepEqual(await texts('#hosts .host'), data.hosts);
deepEqual(await texts('#condSel option'), data.conditions);
deepEqual(await texts('#hosts th.r bdi'), data.probes);
deepEqual(await texts('#acct .note p:not(.muted)'), [data.notes[1]]);
const states = place => p.evaluate(`simback.run.world(${place}).hosts.map(host => host.node && host.node[2])`);
const shown = h => p.evaluate(`document.querySelectorAll('#hosts tbody tr')[${h}].querySelector('.state').textContent`);
equal(await shown(1), (await states(1))[1], 'a text that is no value stands as it is');
equal(await shown(2), (await states(1))[2], 'one that is nested too deeply too');
equal(await shown(3), (await states(1))[3], 'and one of signs');

// A state in Debug's way: strings and characters with brackets and quotes in them, a list that grew.
const fields = () => p.evaluate(`[...document.querySelectorAll('#hosts tbody tr:first-child .kv')].map(e => e.textContent)`);
deepEqual(await fields(), ['name "}, x: 4"', "open '{'", "quote '\"'", 'back "\\\\"', 'list [None \u00d739, Some(7)]', 'log [(1, 5), (1, 6)]']);
deepEqual(await texts('#hosts tbody tr:first-child .kind'), ['Ready \u203a Server']);
deepEqual(await texts('#hosts tbody tr:first-child .state .ch'), ['"}, x: 4"', 'Some(7)', '(1, 6)']);
deepEqual((await texts('#acct dt')).slice(1), ['name', 'list[39]', 'log[1..]']);

// Along the whole run, by keys, with the filter and the dialogs open at times.
await unhurt('at first');
await p.key('Home');
for (let place = 0; place <= 14; place++) {
  equal(await p.evaluate('simback.at()'), place);
  await unhurt('at place ' + place);
  await p.key('ArrowRight', {settle: 40});
}
for (const key of ['i', '?']) { await p.key(key); await unhurt('under the dialog of ' + key); await p.key('Escape'); }
await p.key('i');
deepEqual(await texts('#about pre'), [data.input]);
deepEqual(await texts('#about .pairs span'), data.about);
await p.key('Escape');
await p.key('d'); await p.key('t'); await p.key('0'); await unhurt('with other views');
await p.key('/'); await p.type('<script>'); await p.key('Enter'); await unhurt('with a filter');
ok((await texts('#rows .ti')).some(text => text.includes('</script><script>alert(1)</script>')), 'the filter finds the text');
await p.key('Escape');

// The condition: the first place at which it fails, and the next.
await p.key('Home'); await p.key('f'); equal(await p.evaluate('simback.at()'), 6);
deepEqual(await texts('#condSays'), ['fails']);
await p.key('F'); equal(await p.evaluate('simback.at()'), 6, 'it begins to fail nowhere else');
await p.key('ArrowLeft'); deepEqual(await texts('#condSays'), ['holds']);

// Data that cannot be shown is refused with a reason.
const oops = async text => { put(text); await p.open('file://' + file); return (await texts('.oops'))[0] || ''; };
const quiet = b.logs.filter(text => !text.startsWith('request: file:'));
const broken = change => { const copy = structuredClone(data); change(copy); return JSON.stringify(copy).replaceAll('<', '\\u003c'); };
ok((await oops('{')).includes('no run that can be shown'));
ok((await oops(broken(d => { d.format = 2; }))).includes('format 2'));
ok((await oops(broken(d => { d.log[8] = ['step', 0, 77]; }))).includes('serial 77 is not pending'));
ok((await oops(broken(d => { d.log[8] = ['constructor', 0]; }))).includes('unknown word constructor'));
ok((await oops(broken(d => { d.log.splice(4, 0, ['start', 0, 0, 0]); }))).includes('serial 0 is given twice'));
deepEqual(quiet, [], 'nothing is logged, nothing but the file is asked for');
await b.close();
console.log('hostile: every text stays in its place');
