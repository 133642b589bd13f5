// The page: what is pasted, typed, dropped or linked is judged by a worker, and shown.

// Each kind's name, and what a record of it has shown.
const KINDS = {
  H: ['halting', 'Its run from the blank tape comes to an undefined entry. The last step is counted, and writes a one.'],
  L: ['halting late', 'Its run comes to an undefined entry, after more than 100,000,000 steps. The last step is counted, and writes a one.'],
  C: ['cycler', 'Its run comes to one configuration at two times, or to the same further along the tape, and so again and again.'],
  T: ['translated cycler', 'From some time on its run repeats itself, each time moved along the tape by the same number of cells.'],
  B: ['backward reasoning', 'Its run takes so many steps, and no tape at all leads to an undefined entry in exactly so many.'],
  N: ['n-gram CPS', 'The short words that can stand beside the head are listed. No step leaves the lists, and none of them halts.'],
  F: ['finite automata reduction', 'An automaton accepts each configuration that comes to a halt, and not the blank tape.'],
  A: ['finite automata reduction', 'An automaton, its edges listed, accepts each configuration that comes to a halt, and not the blank tape.'],
  W: ['automata that count', 'Two automata read the half tapes and count. What they read and count is never that of a halt.'],
  R: ['rules with induction', 'By rules between forms of tape, proved by steps or by induction, its run comes to a family of forms again and again.'],
  P: ['a proof of its own', 'One of eight tables of five states with proofs of their own, which this judge takes on trust.'],
  U: ['nothing claimed', 'The record claims nothing.'],
};
const FIRST_STEPS = 1000, MOST_STEPS = 50000000, MOST_COLUMNS = 1200, ZOOMS = [1, 2, 3, 4, 6, 8, 12, 16], BATCH = 200, ROOM = 50;

const at = id => document.getElementById(id);
const told = number => Number(number).toLocaleString('en');
const counted = (number, word) => `${told(number)} ${word}` + (Number(number) === 1 ? '' : 's');

function make(tag, properties, ...children) {
  const made = Object.assign(document.createElement(tag), properties);
  made.append(...children);
  return made;
}

const button = (text, act) => make('button', {type: 'button', onclick: act}, text);

// The worker. One that is at work when something else is wanted is ended, and what it was asked is never answered.
const source = ['judge', 'picture', 'work'].map(id => at(id).textContent).join('\n');
const waiting = new Map();
let worker = null, asked = 0, begun = 0;

function startWorker() {
  worker?.terminate();
  waiting.clear();
  worker = new Worker(URL.createObjectURL(new Blob([source], {type: 'text/javascript'})));
  worker.onmessage = ({data: {id, answer, fault}}) => {
    const {resolve, reject} = waiting.get(id);
    waiting.delete(id);
    if (fault === undefined) resolve(answer);
    else reject(new Error(fault));
  };
}

function ask(what, details) {
  worker.postMessage({id: ++asked, what, ...details});
  return new Promise((resolve, reject) => waiting.set(asked, {resolve, reject}));
}

// How it stands: what is being done, for how long, and a button that ends it; or what was done.
function say(words) {
  at('said').textContent = words;
}

function beginWork() {
  if (!worker || waiting.size > 0) startWorker();
  begun = Date.now();
  at('results').replaceChildren();
  at('stop').hidden = false;
  say('Judging ..');
}

function endWork(words) {
  at('stop').hidden = true;
  say(words);
}

setInterval(() => {
  const seconds = Math.round((Date.now() - begun) / 1000);
  if (!at('stop').hidden && seconds > 0) say(`Judging .. ${told(seconds)} s`);
}, 1000);

// What an answer of the judge says: a verdict for short, and in a sentence.
function verdictOf(answer) {
  const [, steps, , ones] = answer.match(/ halts (\d+)( ones (\d+))?$/) ?? [];
  if (steps) return {word: 'halts', steps, text: `halts in ${counted(steps, 'step')}` + (ones ? `, with ${counted(ones, 'one')}` : '')};
  if (answer.startsWith('refused ')) return {word: 'refused', text: `refused: ${answer.slice(8)}`};
  const word = answer.slice(answer.indexOf(' ') + 1);
  return {word: word.split(',')[0], text: {never: 'never halts', bare: 'without a certificate'}[word] ?? word};
}

// The table of a record as the judge prints it; none where it is refused, and then the record's first word may be one.
function tableOf({record, answer}) {
  const word = answer.startsWith('refused it begins') ? '' : record.split(' ')[0];
  return answer.startsWith('refused ') ? word.replace(/[01][LR][HZ]/g, '---') : answer.split(' ')[0];
}

function transitionsOf(table) {
  const head = make('tr', {}, make('td'), make('th', {scope: 'col'}, '0'), make('th', {scope: 'col'}, '1'));
  const rows = table.split('_').map((row, state) =>
    make('tr', {}, make('th', {scope: 'row'}, 'ABCDEFG'[state]), make('td', {}, row.slice(0, 3)), make('td', {}, row.slice(3))));
  return make('table', {className: 'transitions'}, head, ...rows);
}

function captionOf({last, halts, ones, every, share, from, to}) {
  const rows = every > 1 ? `a row every ${told(every)}` : 'a row each';
  const cells = share > 1 ? `, ${told(share)} a column` : '';
  const end = halts ? ` It halts with step ${told(last + 1)}, and leaves ${counted(ones, 'one')}.` : '';
  return `Steps 0 to ${told(last)}, ${rows}; cells ${told(from)} to ${told(to)}${cells}.${end}`;
}

// The run of a table, with fields for its steps and the zoom; `seen` is called with each picture.
function figureOf(table, steps, seen) {
  const canvas = make('canvas'), caption = make('figcaption');
  const field = make('input', {type: 'number', min: 1, max: MOST_STEPS, value: steps});
  const zooms = make('select', {}, make('option', {value: ''}, 'fit'), ...ZOOMS.map(zoom => make('option', {}, zoom)));
  const frame = make('div', {className: 'frame', tabIndex: 0}, canvas);
  let picture = null;
  canvas.setAttribute('role', 'img');
  canvas.setAttribute('aria-label', 'the run of ' + table);
  const show = () => {
    const fit = Math.min(8, Math.floor(frame.clientWidth / picture.width));
    paint(canvas, picture, Number(zooms.value || fit || 1), getComputedStyle(canvas).color);
  };
  const draw = async () => {
    const wanted = Math.max(1, Math.min(MOST_STEPS, Math.floor(Number(field.value)) || FIRST_STEPS));
    caption.textContent = 'Running ..';
    try {
      picture = await ask('picture', {table, steps: wanted, columns: (!zooms.value && frame.clientWidth) || MOST_COLUMNS});
    } catch (fault) {
      caption.textContent = `It can’t be run so far here: ${fault.message}`;
      return;
    }
    caption.textContent = captionOf(picture);
    show();
    seen(picture);
  };
  field.onchange = draw;
  zooms.onchange = draw;
  // A canvas that isn't shown any more has no colour.
  matchMedia('(prefers-color-scheme: dark)').addEventListener('change', () => picture && canvas.isConnected && show());
  queueMicrotask(draw);
  const tools = make('div', {className: 'tools'}, make('label', {}, 'Steps ', field), make('label', {}, 'Zoom ', zooms));
  return make('figure', {}, tools, caption, frame);
}

function linkOf(record) {
  const href = location.href.split('#')[0] + '#' + encodeURIComponent(record);
  const copy = button('Copy the link', async () => {
    try {
      await navigator.clipboard.writeText(href);
    } catch {
      const field = make('textarea', {value: href});
      copy.after(field);
      field.select();
      document.execCommand('copy');
      field.remove();
      copy.focus();
    }
    copy.textContent = 'Copied';
  });
  return copy;
}

// What is shown of a record on demand.
function fillItem(entry, box) {
  const {record, answer} = entry, table = tableOf(entry), {word, steps} = verdictOf(answer);
  const [, sentence] = KINDS[record.split(' ')[1]] ?? [];
  const claim = record.slice(record.indexOf(' ') + 1);
  if (sentence && word !== 'refused') box.append(make('p', {}, sentence));
  if (sentence) box.append(make('details', {}, make('summary', {}, 'Certificate'), make('pre', {tabIndex: 0}, claim)));
  box.append(make('div', {className: 'tools'}, linkOf(record)));
  if (table) {
    const seen = ({halts, last, ones}) => halts && word === 'bare' && become(entry, `${table} H ${last + 1} ${ones}`);
    const figure = figureOf(table, Math.min(Number(steps ?? FIRST_STEPS), MOST_STEPS), seen);
    box.append(make('div', {className: 'drawn'}, transitionsOf(table), figure));
  }
}

// A table that was seen to halt becomes a record, which is judged.
async function become(entry, record) {
  const [[{answer}]] = await ask('lines', {lines: [record]});
  const before = entry.element;
  Object.assign(entry, {record, answer, element: null});
  const after = elementOf(entry);
  after.open = before.open;
  before.replaceWith(after);
  if (document.querySelectorAll('.item').length === 1) say(verdictOf(answer).text);
}

// A record in a list: its table and verdict, and on demand all else.
function elementOf(entry) {
  if (entry.element) return entry.element;
  const {word, text} = verdictOf(entry.answer), [name] = KINDS[entry.record.split(' ')[1]] ?? [];
  const shown = tableOf(entry) || entry.record.slice(0, 80);
  const verdict = make('strong', {className: word}, text);
  const summary = make('summary', {}, make('code', {}, shown), verdict, ...(name ? [make('span', {}, name)] : []));
  entry.element = make('details', {className: 'item'}, summary);
  entry.element.ontoggle = () => {
    if (entry.element.open && entry.element.childElementCount === 1) fillItem(entry, entry.element);
  };
  return entry.element;
}

// A list of records, some at a time, with a field that searches. Those that aren't judged yet are judged once they are shown.
function listOf(heading, entries) {
  const body = make('div'), found = make('output'), title = make('h2', {}, heading);
  const field = make('input', {type: 'search', spellcheck: false, placeholder: 'part of a record'});
  const tools = make('div', {className: 'tools'}, make('label', {}, 'Search ', field), found);
  let room = ROOM;
  const more = button('Show 100 more', () => {
    room += 100;
    show();
  });
  async function show() {
    const words = field.value.toUpperCase().split(/\s+/);
    const matches = entries.filter(({record}) => words.every(word => record.toUpperCase().includes(word)));
    const some = matches.slice(0, room), open = some.filter(({answer}) => !answer);
    found.textContent = `${told(matches.length)} of ${told(entries.length)}`;
    more.hidden = matches.length <= room;
    tools.hidden = entries.length <= ROOM;
    title.hidden = entries.length === 1 && heading === 'Records';
    if (open.length > 0) {
      const answers = await ask('lines', {lines: open.map(({record}) => record)});
      open.forEach((entry, place) => Object.assign(entry, answers[place][0] ?? {answer: 'refused it has no table'}));
    }
    body.replaceChildren(...some.map(elementOf));
  }
  field.oninput = () => {
    room = ROOM;
    show();
  };
  at('results').append(make('section', {}, title, tools, body, more));
  return show;
}

// Judges lines, more and more at once, and shows the first ones as they come.
async function showLines(lines) {
  const entries = [], counts = new Map();
  const show = listOf('Records', entries);
  let passed = 0;
  for (let from = 0, size = 1; from < lines.length; from += size, size = Math.min(2 * size, BATCH)) {
    const some = lines.slice(from, from + size), answers = await ask('lines', {lines: some});
    answers.forEach((items, place) => {
      if (items.length === 0 && some[place].trim()) passed++;
      for (const item of items) {
        const {word} = verdictOf(item.answer);
        counts.set(word, (counts.get(word) ?? 0) + 1);
        entries.push(item);
      }
    });
    if (entries.length <= ROOM || from + size >= lines.length) await show();
  }
  const names = {bare: 'without a certificate'};
  const parts = [...counts].map(([word, count]) => `${names[word] ?? word} ${told(count)}`);
  if (passed > 0) parts.push(`lines without a table ${told(passed)}`);
  if (entries.length !== 1) return endWork(parts.join(', ') || 'There is no table in it.');
  elementOf(entries[0]).open = true;
  endWork(verdictOf(entries[0].answer).text);
}

// What a report says of a whole tree, in a sentence.
function sentenceOf(report, kinds) {
  const {root, status, best, ones} = report, states = root.split('_').length;
  if (status !== 'complete') return 'So far, of the tables that were judged.';
  if (best === 'none') return `Of the tables below ${root} none halts.`;
  const trust = kinds.some(line => line.startsWith('P ')) ? ', if the tables of the kind P never halt' : '';
  return /[01]/.test(root)
    ? `Of the tables below ${root} that halt, the most steps are ${told(best)}, and the most ones ${told(ones)}${trust}.`
    : `So S(${states}) = ${told(best)} and Σ(${states}) = ${told(ones)}, among all machines of ${states} states${trust}.`;
}

const ROWS = {
  nodes: 'Tables', halting: 'Halting', never: 'Never halting', holdouts: 'Holdouts', open: 'Open', best: 'Most steps', ones: 'Most ones',
};

function statusOf(report, kinds) {
  const rows = Object.entries(ROWS).map(([word, name]) =>
    make('tr', {}, make('th', {scope: 'row'}, name), make('td', {}, report[word] === 'none' ? 'none' : told(report[word]))));
  const judged = kinds.map(line => {
    const [letter, count, ...rest] = line.split(/[ ,]+/), name = `${letter}, ${KINDS[letter][0]}`;
    return make('tr', {}, make('th', {scope: 'row'}, name), make('td', {}, [told(count), ...rest].join(' ')));
  });
  return make('section', {}, make('h2', {}, `Tree of ${report.root}: ${report.status}`), make('p', {}, sentenceOf(report, kinds)),
    make('div', {className: 'drawn'}, make('table', {}, ...rows), make('table', {}, ...judged)));
}

// The report of a ledger, and its records.
async function showLedger(text) {
  const answer = await ask('ledger', {text});
  if (answer.startsWith('refused ')) return endWork(answer);
  const lines = answer.split('\n'), begins = lines.findIndex(line => line.startsWith('root '));
  const faults = lines.slice(0, begins);
  const kinds = lines.filter(line => /^[A-Z] \d/.test(line));
  const pairs = lines.slice(begins).filter(line => /^[a-z_]+ /.test(line)).map(line => line.split(' '));
  const tablesOf = word => pairs.filter(([name]) => name === word).map(([, table]) => table);
  const recordOf = table => {
    const place = text.lastIndexOf(`\n${table} `) + 1;
    return {record: place ? text.slice(place, text.indexOf('\n', place)) : table};
  };
  at('results').append(statusOf(Object.fromEntries(pairs), kinds));
  if (faults.length > 0) {
    const shown = faults.slice(0, 100).join('\n');
    at('results').append(make('section', {}, make('h2', {}, `Refused: ${told(faults.length)}`), make('pre', {tabIndex: 0}, shown)));
  }
  const champions = [...new Set([...tablesOf('champion'), ...tablesOf('ones_champion')])];
  if (champions.length > 0) await listOf('Champions', champions.map(recordOf))();
  const holdouts = tablesOf('holdout');
  if (holdouts.length > 0) await listOf('Holdouts', holdouts.map(recordOf))();
  const records = text.split('\n').filter(line => line && !line.startsWith('bb-ledger '));
  await listOf('Records', records.map(record => ({record})))();
  endWork(`Judged in ${told(Math.round((Date.now() - begun) / 1000))} s.`);
}

// Judges a text, whatever it is.
async function take(text) {
  const plain = text.replaceAll('\r\n', '\n');
  if (!plain.trim()) {
    at('results').replaceChildren();
    return endWork('');
  }
  beginWork();
  try {
    await (/^bb-ledger [12] /.test(plain) ? showLedger(plain) : showLines(plain.split('\n')));
  } catch (fault) {
    endWork(`It can’t be judged here: ${fault.message}`);
  }
}

// The text of files: several are the ledgers of a tree in parts, and its trunk comes first.
async function textOf(files) {
  const isTrunk = file => Number(file.name === 'trunk.ledger'), texts = [];
  for (const file of [...files].sort((a, b) => isTrunk(b) - isTrunk(a))) {
    const first = [...new Uint8Array(await file.slice(0, 2).arrayBuffer())].join();
    if (first === '253,55' || first === '31,139') throw new Error(`${file.name} is compressed (xz -d, gzip -d)`);
    texts.push(await file.text());
  }
  return texts.join('');
}

async function takeFiles(files) {
  at('text').value = '';
  try {
    take(await textOf(files));
  } catch (fault) {
    at('results').replaceChildren();
    endWork(`It can’t be read: ${fault.message}`);
  }
}

// A link's text, with `%` as it is where that isn't an escape.
function takeLink() {
  const linked = location.hash.slice(1);
  if (!linked) return;
  try {
    at('text').value = decodeURIComponent(linked);
  } catch {
    at('text').value = linked;
  }
  take(at('text').value);
}

let typed = 0;
at('text').oninput = () => {
  clearTimeout(typed);
  typed = setTimeout(() => take(at('text').value), 300);
};
// A text that is too long for the field is taken as it comes.
at('text').onpaste = event => {
  const text = event.clipboardData.getData('text');
  if (text.length < 500000) return;
  event.preventDefault();
  take(text);
};
at('file').onchange = () => takeFiles(at('file').files);
at('stop').onclick = () => {
  startWorker();
  endWork('Stopped.');
};
document.ondragover = event => event.preventDefault();
document.ondrop = event => {
  event.preventDefault();
  const {files} = event.dataTransfer, text = event.dataTransfer.getData('text');
  if (files.length > 0) takeFiles(files);
  else if (text) take(at('text').value = text);
};
onhashchange = takeLink;
startWorker();
takeLink();
