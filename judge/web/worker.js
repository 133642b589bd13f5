// What the page asks of its worker, so that it stays alive while the judge works. `judge` is web/browser.ml.

// The judge reads bytes; whatever else stands in a text is none of a record's.
const bytes = text => text.replace(/[^\0-\x7f]/g, '?');
const answerOf = text => judge.record(bytes(text));

const isTable = word => answerOf(word + ' U').endsWith(' undecided');

// What has the form of a table; the judge says whether it is one.
const WORD = /(?<![\w-])(?:[01-][LR-][A-HZ-]){2}(?:_(?:[01-][LR-][A-HZ-]){2})*(?![\w-])/g;

// What a line holds: a record, which is judged; or tables anywhere in it, each once; or nothing. A record is a table, a capital
// letter by itself, and whatever follows. A line of that form without any table is answered too.
function itemsOf(line) {
  const record = line.trim(), isRecord = /^\S+\s+[A-Z](\s|$)/.test(record);
  const judged = () => [{record, answer: answerOf(record)}];
  if (isRecord && isTable(record.split(/\s/)[0])) return judged();
  const tables = [...new Set(record.match(WORD) ?? [])].filter(isTable);
  return isRecord && tables.length === 0 ? judged() : tables.map(table => ({record: table, answer: table + ' bare'}));
}

const asked = {
  lines: ({lines}) => lines.map(itemsOf),
  ledger: ({text}) => judge.ledger(bytes(text)),
  picture: ({table, steps, columns}) => pictureOf(table, steps, 2000, columns),
};

onmessage = ({data}) => {
  try {
    postMessage({id: data.id, answer: asked[data.what](data)});
  } catch (fault) {
    postMessage({id: data.id, fault: String(fault?.message ?? fault)});
  }
};
