// The elements of a page are those of the template: nothing that the run's texts say has become markup or has run.
import { deepEqual, equal } from 'node:assert/strict';

const allowed = new Set(('b bdi body br button circle dd defs dialog div dl dt em g h1 h2 h3 h4 head header html i input kbd label li main meta noscript ol ' +
  'option p path pattern pre rect script section select span style svg table tbody td text th thead title tr wbr').split(' '));

// Checks that a page with a title has no other elements, no handler of an event in the markup, and its own two scripts.
export async function unhurt(p, title, where) {
  const tags = await p.evaluate(`[...new Set([...document.querySelectorAll('*')].map(e => e.localName))].sort()`);
  deepEqual(tags.filter(tag => !allowed.has(tag)), [], where);
  equal(await p.evaluate(`[...document.querySelectorAll('*')].flatMap(e => [...e.attributes]).filter(a => /^on/.test(a.name)).length`), 0, where);
  equal(await p.evaluate('document.scripts.length'), 2, where);
  equal(await p.evaluate('document.title'), title + ' \u2013 simback', where);
}
