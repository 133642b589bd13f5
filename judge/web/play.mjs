// Plays the judge's page in Node, by the code of its worker: judge/web/play.mjs PAGE BB [all]. PAGE is docs/judge.html, BB the
// program bb, with whose answers it is compared.
//
// The records of examples/, some 20,000 of the ledger of four states, and 500 with a byte changed get the answers of `bb check`;
// the ledgers of one to three states the reports of `bb report`; and what is painted of a thousand tables is what `bb show --align`
// prints of them. With `all` records of long runs are judged too, which takes minutes, and the whole ledger of four states. Ends
// with 1 where something isn't so.
import {execFileSync, spawnSync} from 'node:child_process';
import {existsSync, mkdtempSync, readdirSync, readFileSync, rmSync} from 'node:fs';
import {createRequire} from 'node:module';
import {tmpdir} from 'node:os';
import {join} from 'node:path';
import vm from 'node:vm';

const [page, bb, all] = process.argv.slice(2);
const JUDGE = new URL('../judge', import.meta.url).pathname;
const EXAMPLES = new URL('../../examples/', import.meta.url).pathname, STRESS = new URL('../../stress/', import.meta.url).pathname;
const MOST = {maxBuffer: 2 ** 30, encoding: 'latin1'};
const done = [];
let faults = 0;

function fail(what) {
  console.error(`judge: page: ${what}`);
  faults++;
}

// The worker of the page: its scripts, as they stand there, and what it answers.
const scriptOf = id => readFileSync(page, 'utf8').match(new RegExp(`<script[^>]* id='${id}'>\n([^]*?)</script>`))[1];
const scripts = ['judge', 'picture', 'work'].map(scriptOf);
globalThis.require = createRequire(import.meta.url);
vm.runInThisContext(scripts.join('\n'));
const {drawRun: draw, STATE_COLOURS: colours} = vm.runInThisContext('({drawRun, STATE_COLOURS})');
Object.assign(globalThis, {getComputedStyle: () => ({color: 'rgb(1, 2, 3)'}), document: {}});

function ask(what, details) {
  let said = null;
  globalThis.postMessage = message => {
    said = message;
  };
  globalThis.onmessage({data: {id: 1, what, ...details}});
  if (said.fault !== undefined) fail(`${what}: ${said.fault}`);
  return said.answer;
}

// Numbers by chance, the same ones each time.
let seed = 1;
function chance(below) {
  seed = (Math.imul(seed, 1664525) + 1013904223) >>> 0;
  return Math.floor((seed / 2 ** 32) * below);
}

const unpacked = name => execFileSync('xz', ['-dc', EXAMPLES + name], MOST);
const linesOf = text => text.split('\n').filter(line => line);
const program = (words, input) => spawnSync(bb, words, {...MOST, input}).stdout;

function changed(line) {
  const bytes = [...line], place = chance(bytes.length);
  bytes[place] = [...'01LRABCDE-_ 23456789HCTBFN,.:'][chance(29)];
  return bytes.join('');
}

function examples() {
  const texts = ['champions.txt', 'known.txt', 'five-states.known', 'three-states.ledger', 'two-states.ledger', 'one-state.ledger'];
  const kept = texts.map(name => readFileSync(EXAMPLES + name, 'latin1'));
  kept.push(unpacked('rules.xz'), unpacked('five-states.saved.xz'), readFileSync(STRESS + 'cases/counted-records.txt', 'latin1'));
  const isShort = line => all || !/ H \d{6}| [CT] \d+ \d{6}| P$/.test(line);
  return kept.flatMap(linesOf).filter(line => !line.startsWith('bb-ledger ') && isShort(line));
}

// What the page answers of a line; of one that it doesn't take for a record, nothing.
function answersOf(lines) {
  return ask('lines', {lines}).map(items => {
    const [{answer}] = [...items, {answer: 'none'}];
    return answer.startsWith('refused') ? 'refused' : answer.replace(', taken on trust', '');
  });
}

// A line that bb refuses may be one that the page doesn't take for a record: then it shows the tables in it, or nothing. Of changed
// records the judge accepts a little more than bb (judge/README.md); the page no more than the judge as a program, where that is built.
function compareLines(name, lines, isChanged = false) {
  const answers = program(['check'], lines.join('\n') + '\n').split('\n');
  const due = answers.map(answer => answer.replace(/^refused .*/, 'refused'));
  const ours = answersOf(lines), differ = [...lines.keys()].filter(k => ours[k] !== due[k]);
  const more = differ.filter(k => due[k] === 'refused' && !/^none$| bare$/.test(ours[k]));
  const fewer = differ.filter(k => due[k] !== 'refused');
  for (const k of isChanged ? fewer : [...fewer, ...more]) fail(`${lines[k]}: ${ours[k]}, not ${due[k]}`);
  done.push(`${lines.length} ${name}` + (more.length > 0 ? ` (${more.length} are accepted by the judge alone)` : ''));
  if (more.length === 0 || !existsSync(JUDGE)) return;
  const judged = spawnSync(JUDGE, ['check'], {...MOST, input: more.map(k => lines[k] + '\n').join('')}).stdout;
  if (linesOf(judged).join() !== more.map(k => ours[k]).join()) fail('the judge as a program accepts other records than the page');
}

// Numbers that a machine's own, of 31, 32, 53 or 64 bits, would cut off to one that is right.
function large() {
  const records = [k => `1RB1LB_1LA--- H ${6n + k}`, k => `1RB1LB_1LA--- H 6 ${4n + k}`, k => `1RA--- T 0 ${1n + k} R`,
    k => `1RA--- T ${k} 1 R`, k => `1RA--- B ${k}`, k => `1RA--- A R 1 ${k},0 0,- 0`, k => `1RA--- A R 1 0,0 ${k},- 0`,
    k => `1RA--- A R ${1n + k} 0,0 0,- 0`, k => `1RA--- F R ${1n + k} 00 1,2 1`, k => `1RA--- W ${1n + k} 0 0,1a,-,1a 0,- 0A00:0,1A00:1a:1a`,
    k => `1RA--- W 1 0 0,1a,-,1a 0,- 0A00:0,1A00:${1n + k}a:1a`, k => `1RA--- W 1 0 0,1a,-,1a 0,- 0A00:0,1A00:1a:${1n + k}a`,
    k => `1RA--- R - 1^0a1A> 0 l0E.1 ${1n + k}a1 r0B.0.1,1,l0S.1.1.0a1`, k => `1RA--- R - 1^0a1A> ${k} l0E.1 1a1 r0B.0.1,1,l0S.1.1.0a1`,
    k => `1RA--- R - 1^0a1A> 0 l0E.1 1a1 r0B.0.1,${1n + k},l0S.1.1.0a1`];
  const wraps = [31n, 32n, 53n, 62n, 63n, 64n, 65n].flatMap(bits => [2n ** bits, 10n * 2n ** bits]);
  return records.flatMap(record => [record(0n), ...wraps.map(record)]);
}

function compareAllLines() {
  const four = linesOf(unpacked('four-states.ledger.xz')).slice(1);
  const some = four.filter((_, k) => k % 43 === 0), known = examples(), both = [...known, ...some];
  compareLines('records of examples', known);
  compareLines('records of four states', some);
  compareLines('records with large numbers', large());
  compareLines('changed records', Array.from({length: 500}, () => changed(both[chance(both.length)])), true);
}

const reportOf = text => ask('ledger', {text}).replace(/^[A-Z] .*\n/gm, '');

function compareLedger(name, text) {
  if (reportOf(text) !== program(['report', '-'], text)) fail(`the report of ${name}`);
  done.push(`the ledger of ${name}`);
}

// The ledgers of a tree in parts, one behind the other; and a ledger with a wrong record.
function compareParts() {
  const folder = mkdtempSync(join(tmpdir(), 'judge-parts-')), path = name => join(folder, name);
  program(['split', '2', folder, '--filled', '1']);
  const parts = readdirSync(folder).filter(name => name !== 'trunk.ledger');
  for (const name of parts) program(['settle', path(name)]);
  const text = ['trunk.ledger', ...parts].map(name => readFileSync(path(name), 'latin1')).join('');
  if (reportOf(text) !== program(['join', folder])) fail('the report of a tree in parts');
  rmSync(folder, {recursive: true});
  const wrong = ask('ledger', {text: text.replace(/.*\n$/, '1RB1LB_1LA--- H 3 2\n')});
  if (!/^ledger: line \d+: refused: 1RB1LB_1LA--- H 3 2\n/.test(wrong)) fail('a wrong record isn\'t named');
  done.push(`a tree in ${parts.length + 1} parts`);
}

function tableByChance() {
  const n = 1 + chance(5);
  const entry = () => (chance(7) === 0 ? '---' : '01'[chance(2)] + 'LR'[chance(2)] + 'ABCDE'[chance(n)]);
  return Array.from({length: n}, () => entry() + entry()).join('_');
}

// The colour of a pixel as one number, and what each of them shows: a blank, some or most ones, or a state.
const number = bytes => new Uint32Array(Uint8Array.from(bytes).buffer)[0];
const names = new Map([[number([0, 0, 0, 0]), '.'], [number([1, 2, 3, 90]), '+'], [number([1, 2, 3, 255]), '1']]);
colours.forEach((colour, state) => {
  const parts = [1, 3, 5].map(k => parseInt(colour.slice(k, k + 2), 16));
  names.set(number([...parts, 255]), 'ABCDEFG'[state]);
});

// What is painted of a run, row by row.
function painted(table, steps) {
  let pixels = null;
  const createImageData = (width, height) => ({data: new Uint8ClampedArray(4 * width * height)});
  const putImageData = ({data}) => {
    pixels = new Uint32Array(data.buffer);
  };
  const canvas = {style: {}, getContext: () => ({createImageData, putImageData})}, picture = draw(canvas, table, steps, 1);
  const shown = Array.from(pixels, pixel => names.get(pixel)).join(''), {width} = canvas;
  const rows = Array.from({length: canvas.height}, (_, row) => shown.slice(row * width, (row + 1) * width));
  return {...picture, rows};
}

// The same by what `bb show --align` prints of a time.
function rowOf(line, {share}) {
  const shown = line.trim().split(/ +/)[1], head = shown.indexOf('>') - 1, cells = shown.replace(/[A-G]>/, '');
  const columns = [];
  for (let k = 0; k < cells.length; k += share) {
    const some = cells.slice(k, k + share), ones = some.split('1').length - 1;
    columns.push(k <= head && head < k + share ? shown[head] : ones === 0 ? '.' : 2 * ones > some.length ? '1' : '+');
  }
  return columns.join('');
}

function compareRuns(tables, steps) {
  const drawn = tables.map(table => ({table, ...painted(table, steps)}));
  for (const every of new Set(drawn.map(run => run.every))) {
    const some = drawn.filter(run => run.every === every);
    const words = ['show', '--align', '--steps', String(steps), '--every', String(every)];
    const shown = program(words, some.map(({table}) => table + '\n').join('')).split(/^(?=[01-])(?=\S*[A-Z-]\S*$)/m);
    some.forEach((run, k) => {
      const lines = linesOf(shown[k]), end = lines.at(-1).match(/^halts (\d+) ones (\d+)$/);
      const rows = lines.slice(1, end ? -1 : undefined).map(line => rowOf(line, run));
      if (lines[0] !== run.table || rows.join('\n') !== run.rows.join('\n')) fail(`the picture of ${run.table}`);
      const ends = run.halts ? `halts ${run.last + 1} ones ${run.ones}` : undefined;
      if (end?.[0] !== ends) fail(`the end of ${run.table}`);
    });
  }
  done.push(`the pictures of ${tables.length} tables up to step ${steps}`);
}

compareAllLines();
for (const name of ['one-state', 'two-states', 'three-states']) {
  compareLedger(name.replace('-', ' '), readFileSync(EXAMPLES + name + '.ledger', 'latin1'));
}
compareParts();
if (all) compareLedger('four states', unpacked('four-states.ledger.xz'));
compareRuns(Array.from({length: 970}, tableByChance), 150);
// Two cells share a column, half of them ones; and each second time has a row.
compareRuns(['1RA---', '1RB---_0RA---', '1RB1LC_1RC1RB_1RD0LE_1LA1LD_---0LA', ...Array.from({length: 27}, tableByChance)], 2300);
console.log(`judge: page: played beside bb: ${done.join(', ')}; ${faults} differ`);
process.exit(faults > 0 ? 1 : 0);
