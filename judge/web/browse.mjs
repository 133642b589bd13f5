// Plays the judge's page in a browser without a screen: judge/web/browse.mjs PAGE [FOLDER [PART ..]]. It pastes a record, follows
// links, goes through the page by the keyboard alone, drops records of each kind, many and long ones, what is no list or is markup
// elsewhere, and the ledgers of three and four states, and looks at the page dark and 390 pixels wide. Of a list it compares each
// table, verdict, certificate, link and pixel with what is said here and with a plain run; of ledgers each number and list. Into
// FOLDER it puts pictures of what was seen, if that isn't empty. PARTs are names of the functions below, if not all. It needs
// chromium and xz.
// Ends with 1 where the page shows something else, or asks for anything from elsewhere.
import {execFileSync, spawn} from 'node:child_process';
import {mkdtempSync, readFileSync, rmSync, writeFileSync} from 'node:fs';
import {tmpdir} from 'node:os';
import {join, resolve} from 'node:path';
import {pathToFileURL} from 'node:url';

const [page, shots, ...wanted] = process.argv.slice(2), address = pathToFileURL(resolve(page)).href;
const EXAMPLES = new URL('../../examples/', import.meta.url).pathname;
const folder = mkdtempSync(join(tmpdir(), 'judge-page-'));
let faults = 0;

// The browser, by its protocol over two pipes.
const flags = ['--headless=new', '--no-sandbox', '--disable-gpu', '--remote-debugging-pipe', `--user-data-dir=${folder}/profile`];
const browser = spawn('chromium', [...flags, 'about:blank'], {stdio: ['ignore', 'ignore', 'ignore', 'pipe', 'pipe']});
const waiting = new Map(), asked = [];
let last = 0, rest = '';

browser.stdio[4].on('data', data => {
  const frames = (rest + data).split('\0');
  rest = frames.pop();
  for (const frame of frames.map(text => JSON.parse(text))) {
    if (frame.method === 'Network.requestWillBeSent') asked.push(frame.params.request.url);
    if (frame.method === 'Runtime.exceptionThrown') expect(false, `a fault: ${JSON.stringify(frame.params.exceptionDetails)}`);
    waiting.get(frame.id)?.(frame);
    waiting.delete(frame.id);
  }
});

let sessionId = undefined;
async function send(method, params = {}) {
  const id = ++last;
  browser.stdio[3].write(JSON.stringify({id, method, params, sessionId}) + '\0');
  const {result, error} = await new Promise(done => waiting.set(id, done));
  if (error) throw new Error(`${method}: ${error.message}`);
  return result;
}

async function evaluate(expression) {
  const {result} = await send('Runtime.evaluate', {expression, returnByValue: true, awaitPromise: true});
  return result.value;
}

const pause = milliseconds => new Promise(done => setTimeout(done, milliseconds));

function expect(holds, what) {
  console.log(`judge: browser: ${holds ? 'seen' : 'NOT SEEN'}: ${what}`);
  if (!holds) faults++;
}

// Waits until an expression holds in the page.
async function until(what, expression, seconds = 300) {
  const end = Date.now() + 1000 * seconds;
  let holds = await evaluate(expression);
  while (!holds && Date.now() < end) {
    await pause(100);
    holds = await evaluate(expression);
  }
  expect(holds, what);
}

async function shoot(name) {
  if (!shots) return;
  await pause(500);
  const {data} = await send('Page.captureScreenshot', {format: 'png'});
  writeFileSync(join(shots, name + '.png'), Buffer.from(data, 'base64'));
}

async function open(hash = '') {
  await send('Page.navigate', {url: 'about:blank'});
  await send('Page.navigate', {url: address + hash});
  const isOpen = "document.readyState === 'complete' && Boolean(document.getElementById('text'))";
  await until('the page opens' + (hash && ' by a link'), isOpen);
}

async function press(key, number) {
  const text = key.length === 1 ? key : key === 'Enter' ? '\r' : undefined;
  await send('Input.dispatchKeyEvent', {type: 'keyDown', key, text, windowsVirtualKeyCode: number});
  await send('Input.dispatchKeyEvent', {type: 'keyUp', key, windowsVirtualKeyCode: number});
}

// Drops files on the page.
async function drop(...files) {
  const data = {items: [], files, dragOperationsMask: 1};
  for (const type of ['dragEnter', 'dragOver', 'drop']) await send('Input.dispatchDragEvent', {type, x: 200, y: 200, data});
}

// Drops a text as a file. What the page said of the last one goes first, since it may be what is waited for.
async function dropText(text, name = 'records') {
  writeFileSync(join(folder, name), text);
  await evaluate("document.getElementById('said').textContent = ''");
  await drop(join(folder, name));
}

const shown = "document.getElementById('results').innerText";
const drawn = "[...document.querySelectorAll('canvas')].some(canvas => canvas.height > 1 && canvas.width > 1)";
const CHAMPION = '1RB1LB_1LA0LC_---1LD_1RD0RA';

async function pastes() {
  await open();
  await evaluate("document.getElementById('text').focus()");
  await send('Input.insertText', {text: CHAMPION + ' H 107 13'});
  await until('a record that is pasted', `${shown}.includes('halts in 107 steps, with 13 ones')`);
  await until('its run', `[...document.querySelectorAll('canvas')].some(canvas => canvas.height === 107)`);
  await shoot('paste');
  await evaluate("document.getElementById('text').select()");
  const links = 'https://bbchallenge.org/1RA--- and 1RB1LB_1LA1RZ', translated = '1RA--- T 0 1 R\n1RA--- T 0 99999999999 R';
  await send('Input.insertText', {text: `${CHAMPION} H 108\nnothing here\n${links}\n${translated}`});
  await until('a list', `${shown}.includes("doesn't hold")`);
  const counts = 'refused 2, without a certificate 2, never 1, lines without a table 1';
  await until('its counts', `document.getElementById('said').textContent === '${counts}'`);
  await shoot('list');
}

async function links() {
  await open('#' + encodeURIComponent('1RA--- R - 1^0a1A> 0 l0E.1 1a1 r0B.0.1,1,l0S.1.1.0a1'));
  await until('a linked record', `${shown}.includes('never halts')`);
  await until('a picture of it', drawn);
  const copy = "[...document.querySelectorAll('button')].find(({textContent}) => /^Cop/.test(textContent))";
  await evaluate(`${copy}.click()`);
  await until('that its link is copied', `${copy}.textContent === 'Copied'`);
  await shoot('link');
  await open('#1RB1LB_1LA---');
  await until('a linked table, which is run and judged', `${shown}.includes('halts in 6 steps, with 4 ones')`);
  await open('#1RB1LC_1RC1RB_1RD0LE_1LA1LD_---0LA');
  await until('one that goes on', `${shown}.includes('without a certificate') && ${drawn}`);
  await shoot('table');
}

async function drops() {
  const path = join(folder, 'four-states.ledger');
  writeFileSync(path, execFileSync('xz', ['-dc', EXAMPLES + 'four-states.ledger.xz'], {maxBuffer: 2 ** 30}));
  await open();
  await drop(EXAMPLES + 'four-states.ledger.xz');
  await until('that a file is compressed', "document.getElementById('said').textContent.includes('is compressed')");
  await drop(path);
  await until('the page is alive while a ledger is judged', "document.getElementById('said').textContent.startsWith('Judging')");
  await evaluate("document.getElementById('stop').click()");
  await until('it is stopped', "document.getElementById('said').textContent === 'Stopped.' && document.getElementById('stop').hidden");
  await drop(path);
  await until('the ledger of four states', `${shown}.includes('So S(4) = 107 and Σ(4) = 13')`, 1200);
  await until('its records', `${shown}.includes('858,909 of 858,909')`);
  await shoot('ledger');
  await evaluate("[...document.querySelectorAll('input[type=search]')].at(-1).focus()");
  await send('Input.insertText', {text: '0RA1LD f r'});
  await until('a search in them', `!${shown}.includes('858,909 of 858,909') && ${shown}.includes(' of 858,909')`);
}

// A record of each kind, right and changed in one place; many records; what is no list; what is markup elsewhere.
async function amounts() {
  const say = "document.getElementById('said').textContent";
  const held = execFileSync('xz', ['-dc', EXAMPLES + 'four-states.ledger.xz'], {maxBuffer: 2 ** 30}).toString().split('\n').slice(1);
  const others = ['five-states.known', 'known.txt'].map(name => readFileSync(EXAMPLES + name, 'latin1').split('\n')).flat();
  const rule = '1RA--- R - 1^0a1A> 0 l0E.1 1a1 r0B.0.1,1,l0S.1.1.0a1';
  const kinds = [...new Map([rule, ...others, ...held].map(line => [line.split(' ')[1], line])).entries()].filter(([kind]) => /^[A-Z]$/.test(kind) && kind !== 'U');
  await open();
  await dropText(kinds.map(([, line]) => line).join('\n'));
  await until(`a record of each of ${kinds.map(([kind]) => kind).join('')}`, `${say}.includes('never ${kinds.length - 1}') && ${say}.includes('halts 1') && !${say}.includes('refused')`);
  await dropText(kinds.map(([, line]) => line.replace(/.$/, last => last === '1' ? '2' : '1')).join('\n'));
  await until('the same with another last letter', `${say}.includes('refused') && !${say}.includes('never ${kinds.length - 1}')`);
  await dropText(held.filter(line => / [CT] /.test(line)).slice(0, 10000).join('\n'));
  await until('10,000 records', `${say} === 'never 10,000'`);
  await dropText('it is no list\n'.repeat(750000));
  await until('ten megabytes that are no list', `/without a table/.test(${say})`);
  for (const bytes of [49152, 49153]) {
    await dropText('1RB1LB_1LA--- N 3 ' + '0'.repeat(bytes - 18));
    await until(`a record of ${bytes} bytes`, `${say}.startsWith('refused')`);
  }
  await dropText('<img src=x onerror="window.hit=1"> 1RA--- T 0 1 R<script>window.hit=1</script>\n1RA--- T 0 1 R');
  await until('what is markup elsewhere', `${shown}.includes('1RA---') && !window.hit && !document.querySelector('#results img, #results script')`);
}

// The colours of the states, as `bb draw` has them; and records with what is to be shown of each: its table and verdict, how that is
// marked, the name of its kind; what is said of the kind, if the record isn't refused; and the caption of its picture.
const COLOURS = ['e66950', '195feb', '696400', 'd76ebe', '2391fa', 'a52daa', 'c3870f'];
const IMAGE = '<img/src=x/onerror=window.hit=1>';
const HALTS = 'Its run from the blank tape comes to an undefined entry.', MOVES = 'From some time on its run repeats itself, each time moved';
const FAILS = "refused: its certificate doesn't hold for the table";
const FOUR = 'Steps 0 to 106, a row each; cells -10 to 3. It halts with step 107, and leaves 13 ones.';
const TWO = 'Steps 0 to 5, a row each; cells -2 to 1. It halts with step 6, and leaves 4 ones.';
const ON = 'Steps 0 to 1,000, a row each; cells';
const LIST = [
  [`${CHAMPION} H 107 13`, CHAMPION, 'halts in 107 steps, with 13 ones', 'halts', 'halting', HALTS, FOUR],
  [`${CHAMPION} H 107 14`, CHAMPION, FAILS, 'refused', 'halting', '', FOUR],
  ['1RB1RC_1LB1LA_---0RB T 12 27 R', '1RB1RC_1LB1LA_---0RB', 'never halts', 'never', 'translated cycler', MOVES, ON + ' -1 to 67.'],
  ['1RB1LB_1LA--- H 6 4', '1RB1LB_1LA---', 'halts in 6 steps, with 4 ones', 'halts', 'halting', HALTS, TWO],
  ['0RB---_0LA--- C 2 4', '0RB---_0LA---', 'never halts', 'never', 'cycler', 'Its run comes to one configuration at two times', ON + ' 0 to 1.'],
  ['1RA---', '1RA---', 'without a certificate', 'bare', '', '', ON + ' 0 to 1,000, 2 a column.'],
  [`1RA--- T ${IMAGE}`, '1RA---', "refused: its certificate can't be read", 'refused', 'translated cycler', '', ON + ' 0 to 1,000, 2 a column.'],
  [`${IMAGE} T 0 1 R`, `${IMAGE} T 0 1 R`, 'refused: it begins with no table', 'refused', 'translated cycler', '', ''],
];

// What the page shows of each item that is open, or that isn't: its summary; and the transitions, the certificate, the sentence on
// its kind, and the caption.
const summaries = `[...document.querySelectorAll('.item > summary')].map(({children: [table, verdict, kind]}) =>
  [table.textContent, verdict.textContent, verdict.className, kind?.textContent ?? ''].join(' | '))`;
const texts = `[...document.querySelectorAll('.item')].map(item =>
  ['.transitions', 'pre', ':scope > p', 'figcaption'].map(name => item.querySelector(name)?.textContent ?? ''))`;

async function compare(what, expression, due) {
  const seen = await evaluate(expression), same = JSON.stringify(seen) === JSON.stringify(due);
  expect(same, what + (same ? '' : `: ${JSON.stringify(seen)} and not ${JSON.stringify(due)}`));
}

// What is painted on a canvas, row by row: a blank, a column of the colour of the text or paler, or a state.
const painted = place => `(() => {
  const canvas = document.querySelectorAll('canvas')[${place}], {width, height} = canvas;
  const ink = getComputedStyle(document.body).color.match(/\\d+/g).map(Number);
  const {data} = canvas.getContext('2d').getImageData(0, 0, width, height);
  const hex = k => [...data.slice(k, k + 3)].map(byte => byte.toString(16).padStart(2, '0')).join('');
  const shown = k => data[k + 3] === 0 ? '.' : data[k + 3] < 255 ? '+' : ink.every((byte, j) => byte === data[k + j]) ? '1'
    : 'ABCDEFG'[${JSON.stringify(COLOURS)}.indexOf(hex(k))] ?? '?';
  return Array.from({length: height}, (_, row) =>
    Array.from({length: width}, (_, column) => shown(4 * (row * width + column))).join(''));
})()`;

// The same by a plain run, one cell a column or, of so many columns, as many cells as they have to share.
function rowsOf(table, steps, columns = Infinity) {
  const entries = table.split('_').map(row => [row.slice(0, 3), row.slice(3)]), cells = new Map(), times = [];
  let head = 0, state = 0;
  for (let step = 0; ; step++) {
    const entry = entries[state][cells.get(head) ?? 0];
    times.push({head, state, ones: new Set([...cells.keys()].filter(cell => cells.get(cell)))});
    if (step === steps || entry === '---') break;
    cells.set(head, Number(entry[0]));
    head += entry[1] === 'R' ? 1 : -1;
    state = entry.charCodeAt(2) - 65;
  }
  const low = Math.min(...times.map(time => time.head)), high = Math.max(...times.map(time => time.head));
  const share = Math.ceil((high - low + 1) / columns), every = Math.floor((times.length - 1) / 2000) + 1;
  const columnOf = (time, from) => {
    const some = Array.from({length: Math.min(share, high - from + 1)}, (_, k) => from + k);
    const ones = some.filter(cell => time.ones.has(cell)).length;
    return some.includes(time.head) ? 'ABCDEFG'[time.state] : ones === 0 ? '.' : 2 * ones > some.length ? '1' : '+';
  };
  const starts = Array.from({length: Math.ceil((high - low + 1) / share)}, (_, k) => low + k * share);
  const rows = times.filter((_, step) => step % every === 0 || (steps >= times.length && step === times.length - 1));
  return rows.map(time => starts.map(from => columnOf(time, from)).join(''));
}

// The picture of an item beside a plain run.
async function compareRun(place, table, steps) {
  const columns = await evaluate(`document.querySelectorAll('.frame')[${place}].clientWidth`);
  const rows = await evaluate(painted(place)), due = rowsOf(table, steps, columns);
  expect(rows.join('\n') === due.join('\n'), `the run of ${table} up to step ${steps}, ${rows.length} rows`);
}

// What a table has as it is shown.
const cellsOf = table => '01' + table.split('_').map((row, state) => 'ABCDEFG'[state] + row).join('');

// Each item of a list: what is shown of it, its link, and its picture.
async function items() {
  await open();
  await dropText(LIST.map(([record]) => record).join('\n'));
  await until('a list is judged', `document.querySelectorAll('.item').length === ${LIST.length}`);
  await compare('tables and verdicts, in their order', summaries, LIST.map(([, ...due]) => due.slice(0, 4).join(' | ')));
  await compare('their counts', "document.getElementById('said').textContent", 'halts 2, refused 3, never 2, without a certificate 1');
  await evaluate("document.querySelectorAll('.item').forEach(item => { item.open = true; })");
  const runs = LIST.filter(due => due[6] !== '');
  const captions = "[...document.querySelectorAll('figcaption')].map(({textContent}) => textContent)";
  await until('their pictures', `${captions}.filter(text => text.startsWith('Steps')).length === ${runs.length}`);
  const seen = await evaluate(texts);
  LIST.forEach(([record, table, , word, kind, sentence, caption], place) => {
    const [transitions, claim, told, under] = seen[place];
    const stands = transitions === (caption && cellsOf(table)) && claim === (kind && record.slice(record.indexOf(' ') + 1))
      && (sentence === '' ? told === '' : told.startsWith(sentence)) && under === caption;
    expect(stands, `what is behind ${record}, ${word}` + (stands ? '' : JSON.stringify(seen[place])));
  });
  for (const [place, [record, table]] of runs.entries()) await compareRun(place, table, / H /.test(record) ? 107 : 1000);
  expect(await evaluate("!window.hit && !document.querySelector('#results img')"), 'markup in records is text');
  await evaluate("Object.defineProperty(navigator, 'clipboard', {value: {writeText: async text => { window.copied = text; }}})");
  for (const [place, [record]] of LIST.entries()) {
    await evaluate(`[...document.querySelectorAll('.item')][${place}].querySelector(':scope > .tools button').click()`);
    await compare('the link of ' + record, 'window.copied', address + '#' + encodeURIComponent(record));
  }
}

// A picture with other steps, where times and cells share a row and a column; and with another zoom.
async function pictures() {
  const table = '1RB1LC_1RC1RB_1RD0LE_1LA1LD_---0LA', change = (name, value) =>
    evaluate(`(() => { const field = document.querySelector('${name}'); field.value = ${value}; field.dispatchEvent(new Event('change')); })()`);
  await open('#' + table);
  await until('a run of 1,000 steps', "/^Steps 0 to 1,000, a row each/.test(document.querySelector('figcaption').textContent)");
  await compareRun(0, table, 1000);
  await change('figure input', 4321);
  await until('it goes on', "/^Steps 0 to 4,321, a row every 3;/.test(document.querySelector('figcaption').textContent)", 20);
  await compareRun(0, table, 4321);
  await change('figure select', 3);
  await until('it is narrower', "document.querySelector('canvas').style.width === 3 * document.querySelector('canvas').width + 'px'", 20);
  await open('#1RA---');
  await until('cells that share a column', "/ 2 a column\\.$/.test(document.querySelector('figcaption').textContent)");
  await compareRun(0, '1RA---', 1000);
}

// The report of a ledger as it is shown: its heading and sentence, and the rows of its tables. And the headings of all sections.
const report = `(() => {
  const section = document.querySelector('#results section');
  return [...section.querySelectorAll('h2, p, tr')].map(one => [...one.children].map(cell => cell.textContent).join(' ') || one.textContent);
})()`;
const headings = "[...document.querySelectorAll('#results h2')].map(({textContent}) => textContent)";
const itemsUnder = heading => `(() => {
  const section = [...document.querySelectorAll('#results section')].find(one => one.querySelector('h2').textContent === '${heading}');
  return [...section.querySelectorAll('.item > summary')].map(({children: [table, verdict]}) => table.textContent + ' | ' + verdict.textContent);
})()`;

// What is shown of a record that stands, by what it claims.
function shownOf(line) {
  const [table, kind, steps, ones] = line.split(' ');
  const counted = (count, word) => `${count} ${word}` + (count === '1' ? '' : 's');
  return table + ' | ' + (kind === 'H' ? `halts in ${counted(steps, 'step')}, with ${counted(ones, 'one')}` : 'never halts');
}

const linesOf = name => readFileSync(EXAMPLES + name, 'latin1').trim().split('\n');
const judged = "document.getElementById('said').textContent.startsWith('Judged in')";

// Below this table the tree is the table itself and what fills its entry B1, one of the kind P; and their certificates, in the order
// of their texts.
const TRUSTED = '1RB1LC_0RC---_1LD0LA_1LE---_1LA0LA';
const FILLED = ('T 42 48 L,T 40 47 L,T 146 182 L,H 33 8,T 146 182 L,H 35 9,P,T 170 190 L,H 33 8,T 170 190 L,'
  + 'T 42 48 L,T 147 185 L,T 162 198 L,H 33 9,T 162 198 L,T 38 46 L,T 179 199 L,T 30 47 L,H 33 9,T 30 47 L').split(',');

// Ledgers: a whole one, with all that is listed of it; one with wrong records; a tree in parts; and a tree below a table.
async function trees() {
  const three = linesOf('three-states.ledger').slice(1), two = linesOf('two-states.ledger'), first = three.slice(0, 50).map(shownOf);
  await open();
  await drop(EXAMPLES + 'three-states.ledger');
  await until('the ledger of three states', judged);
  const kinds = ['H, halting 1,772', 'C, cycler 526', 'T, translated cycler 3,027', 'B, backward reasoning 55',
    'F, finite automata reduction 13', 'N, n-gram CPS 24'];
  await compare('its report', report, ['Tree of ------_------_------: complete', 'So S(3) = 21 and Σ(3) = 6, among all machines of 3 states.',
    'Tables 5,417', 'Halting 1,772', 'Never halting 3,645', 'Holdouts 0', 'Open 0', 'Most steps 21', 'Most ones 6', ...kinds]);
  await compare('its champions', itemsUnder('Champions'), ['1RB---_1LB0RC_1LC1LA', '1RB---_0RC1RB_1LC1LA', '1RB1LC_1LA1RB_1LB---',
    '1RB1LC_1RC---_1LA0LB', '1RB1RA_1LC---_1RA1LB', '1RB1RC_1LC---_1RA0LB'].map(table => shownOf(three.find(line => line.startsWith(table)))));
  await compare('its first records', itemsUnder('Records'), first);
  await evaluate("document.querySelector('section:last-child > button').click()");
  await until('100 more', `${itemsUnder('Records')}.length === 150`, 20);
  await compare('their verdicts', itemsUnder('Records'), three.slice(0, 150).map(shownOf));
  await evaluate("[...document.querySelectorAll('input[type=search]')].at(-1).focus()");
  await send('Input.insertText', {text: 'lc_1 h'});
  const found = three.filter(line => /LC_1/.test(line) && / H /.test(line));
  await until('a search', `document.querySelector('section:last-child output').textContent === '${found.length} of 5,417'`, 20);
  const due = JSON.stringify(JSON.stringify(found.slice(0, 50).map(shownOf)));
  await until('what it finds', `JSON.stringify(${itemsUnder('Records')}) === ${due}`, 20);

  const wrong = ['1RB1LB_1LA--- H 6 5', `1RB1RB_1LA--- T ${IMAGE}`], why = [FAILS, "refused: its certificate can't be read"];
  for (const count of [1, 2]) {
    const some = wrong.slice(0, count), named = some.map((line, k) => `ledger: line ${two.length + 1 + k}: refused: ${line}`);
    await dropText([...two, ...some].join('\n') + '\n');
    await until(`a ledger with wrong records, ${count}`, judged);
    await compare('they are named', "document.querySelector('#results pre').textContent", named.join('\n'));
    await compare('what is said of the tree', `${report}[1]`, 'So far, of the tables that were judged.');
    await compare('its sections', headings, ['Tree of ------_------: holdouts', `Refused: ${count}`, 'Champions', 'Holdouts', 'Records']);
    await compare('its holdouts', itemsUnder('Holdouts'), some.map((line, k) => `${line.split(' ')[0]} | ${why[k]}`));
  }
  expect(await evaluate("!window.hit && !document.querySelector('#results img')"), 'markup in a ledger is text');

  const parts = ['0RA---_------', '0RB---_------', '1RA---_------', '1RB---_------'].map(root =>
    [root + '.ledger', ['bb-ledger 2 ' + root, ...two.filter(line => line.startsWith(root.slice(0, 3)))]]);
  parts.push(['trunk.ledger', two.slice(0, 2)]);
  for (const [name, lines] of parts) writeFileSync(join(folder, name), lines.join('\n') + '\n');
  await drop(...parts.map(([name]) => join(folder, name)));
  await until('a tree in parts', `${judged} && ${shown}.includes('So S(2) = 6 and Σ(2) = 4, among all machines of 2 states.')`, 20);

  const entries = ['0', '1'].flatMap(symbol => ['L', 'R'].flatMap(side => [...'ABCDE'].map(state => symbol + side + state)));
  const filled = entries.map((entry, k) => `${TRUSTED.replace('---', entry)} ${FILLED[k]}`);
  await dropText([`bb-ledger 2 ${TRUSTED}`, `${TRUSTED} H 32 9`, ...filled].join('\n') + '\n');
  await until('a tree below a table', `${judged} && ${shown}.includes('Tree of ${TRUSTED}: complete')`, 20);
  await compare('what rests on the kind P', `${report}[1]`,
    `Of the tables below ${TRUSTED} that halt, the most steps are 35, and the most ones 9, if the tables of the kind P never halt.`);
  await compare('what is trusted', `${report}.at(-1)`, 'P, a proof of its own 1 taken on trust');
}

async function byKeyboard() {
  await open();
  await evaluate('document.body.focus()');
  await press('Tab', 9);
  for (const key of '1RB1LB_1LA--- H 6 4') await press(key, 0);
  await until('a record that is typed', `${shown}.includes('halts in 6 steps')`);
  const focus = () => evaluate("document.activeElement.tagName + ' ' + document.activeElement.textContent.slice(0, 20)");
  const seen = [];
  for (let k = 0; k < 20; k++) {
    await press('Tab', 9);
    seen.push(await focus());
  }
  for (const due of ['SUMMARY 1RB1LB', 'SUMMARY Certificate', 'SELECT', 'BUTTON Copy the link']) {
    expect(seen.some(text => text.startsWith(due)), `the keyboard comes to ${due}`);
  }
  await evaluate("document.querySelector('.item > summary').focus()");
  await press('Enter', 13);
  await until('a record is folded by Enter', "!document.querySelector('.item').open");
}

async function otherwise() {
  await send('Emulation.setEmulatedMedia', {features: [{name: 'prefers-color-scheme', value: 'dark'}]});
  await open('#' + encodeURIComponent(CHAMPION + ' H 107 13'));
  await until('the page, dark', `${drawn} && getComputedStyle(document.body).backgroundColor === 'rgb(19, 22, 26)'`);
  await compareRun(0, CHAMPION, 107);
  await shoot('dark');
  await send('Emulation.setDeviceMetricsOverride', {width: 390, height: 844, deviceScaleFactor: 2, mobile: true});
  await open('#' + encodeURIComponent(CHAMPION + ' H 107 13'));
  await until('the page, 390 pixels wide', `${drawn} && document.documentElement.scrollWidth <= 390`);
  await shoot('narrow');
}

async function main() {
  const {targetInfos} = await send('Target.getTargets');
  const {targetId} = targetInfos.find(({type}) => type === 'page');
  ({sessionId} = await send('Target.attachToTarget', {targetId, flatten: true}));
  for (const domain of ['Page', 'Runtime', 'Network']) await send(`${domain}.enable`);
  await send('Emulation.setDeviceMetricsOverride', {width: 1100, height: 1200, deviceScaleFactor: 1, mobile: false});
  for (const part of [pastes, links, items, pictures, byKeyboard, trees, amounts, drops, otherwise]) {
    if (wanted.length === 0 || wanted.includes(part.name)) await part();
  }
  const others = asked.filter(url => !/^(about|blob|data):/.test(url) && url.split('#')[0] !== address);
  expect(others.length === 0, 'nothing is asked from elsewhere' + others.map(url => ' ' + url).join(''));
}

try {
  await main();
} catch (fault) {
  expect(false, fault.message);
} finally {
  browser.kill();
  await pause(500);
  rmSync(folder, {recursive: true, force: true});
}
process.exit(faults > 0 ? 1 : 0);
