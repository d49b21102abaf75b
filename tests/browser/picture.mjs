// Takes a picture of a page: node picture.mjs PAGE#p=PLACE PNG [WIDTH HEIGHT [dark]].
import { resolve } from 'node:path';
import { browser } from './cdp.mjs';

const [page, png, width = '1440', height = '900', dark = ''] = process.argv.slice(2), b = await browser();
const p = await b.page('file://' + resolve(page), {width: +width, height: +height, dark: dark === 'dark'});
await p.shot(png);
await b.close();
