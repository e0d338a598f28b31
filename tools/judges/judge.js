// Holds a reader to the outside judges over many lists: clean or not with all of them, every word of every row with acorn and babel, the rows with
// oxc-parser where it is installed (oxc.js), and every reading with the plain reader of demand 3. Each disagreement is put into a class of classes.js; one that fits none is made small, shown, and fails the run.
//
//     node judge.js [--reader COMMAND] [--jobs N] [--batch N] [--keep FILE] RUN..      RUN: small:LENGTH | matched:LENGTH:ALPHABET |
//                                                                                      random:SEED:COUNT:LONGEST |
//                                                                                      pattern:SEED:COUNT:LONGEST (the pattern entry)
//
// COMMAND reads lines of readers/twin/src/protocol.rs from standard input. --jobs says how many processes judge, each its share of the batches.
// --keep writes each list that was judged, with the answer that was agreed on.
'use strict';
const fs = require('fs');
const path = require('path');
const { execFileSync, fork } = require('child_process');
const { spell, outside, outsidePattern, balanced, twice } = require('../../readers/spell.js');
const { rowsOf } = require('./estree.js');
const parsers = require('../../readers/parsers.js');
const { classOf } = require('./classes.js');
const oxc = require('./oxc.js');

const PROGRAMS = path.join(__dirname, '../../readers/target/release');
const LISTS = path.join(PROGRAMS, 'lists');
const PLAIN = path.join(PROGRAMS, 'plain');
const BIG = { maxBuffer: 1 << 30, encoding: 'latin1' };

const options = { reader: path.join(PROGRAMS, 'twin'), batch: '20000', jobs: '1', keep: null, share: null };
const runs = [];
for (let i = 2; i < process.argv.length; i++) {
  if (process.argv[i].startsWith('--')) options[process.argv[i].slice(2)] = process.argv[++i];
  else runs.push(process.argv[i]);
}

const ask = (command, lines) => execFileSync(command, [], { ...BIG, input: lines.join('\n') + '\n' }).split('\n');
const bytes = (hex) => Array.from(Buffer.from(hex, 'hex'));

// An answer line taken apart.
function answerOf(line) {
  if (line.startsWith('refused')) {
    const [, number, place] = line.split(' ').map(Number);
    return { read: false, clean: false, number, place };
  }
  if (line === 'long') return { long: true };
  if (!line.startsWith('read')) throw new Error('the reader said: ' + line);
  const [head, words, records] = line.split(':');
  const numbers = (text) => JSON.parse('[' + text.trim().replaceAll(' ', ',') + ']');
  const said = numbers(records);
  return { read: true, clean: said.length === 0, words: numbers(words), records: said, abandoned: Number(head.split(' ')[3]) };
}

const same = (a, b) => a.length === b.length && a.every((word, i) => word === b[i]);
const isEarly = (kinds, flags) => kinds.some((k, i) => k === 2 && kinds[i + 1] === 18 && !flags[i + 1] && kinds[i + 2] === 28 && kinds[i + 3] === 1);

// One list before it is judged: what both readers say, and its text.
function caseOf(line, reader, plain) {
  const [letter, hexKinds, hexFlags] = line.split(' ');
  const kinds = bytes(hexKinds);
  const flags = bytes(hexFlags);
  const ours = answerOf(reader);
  const theirs = answerOf(plain);
  const early = isEarly(kinds, flags);
  const it = { line, reader, pattern: letter === 'p', kinds, flags, ours, early, standard: early && !theirs.long ? theirs : ours, unlike: [] };
  if (!theirs.long && !(ours.number <= 7)) {
    const alike = ours.read === theirs.read && (!ours.read || (same(ours.words, theirs.words) && same(ours.records, theirs.records)));
    if (!alike && !(early && !ours.read)) it.unlike.push({ judge: 'plain', how: 'reads otherwise' });
  }
  it.outside = ours.number <= 7 ? 'refused by a check' : (it.pattern ? outsidePattern : outside)(kinds, flags);
  if (!it.outside) {
    it.renamed = it.standard.clean ? twice(kinds, it.standard.words) : null;
    it.spelled = spell(kinds, flags, it);
    it.balanced = balanced(kinds);
  }
  return it;
}

// The verdicts of those who run in this process, with their trees held to ours.
function judge(it) {
  const { text } = it.spelled;
  it.verdicts = {};
  for (const [name, parse] of [['acorn', parsers.acorn && parsers.byAcorn], ['babel', parsers.babel && parsers.byBabel]]) {
    if (!parse) continue;
    const tree = parse(text);
    it.verdicts[name] = tree && true;
    if (tree === false) it.verdicts[name] = false;
    if (tree && it.standard.clean && !same(rowsOf(tree, it.spelled, it.pattern), it.standard.words)) it.unlike.push({ judge: name, how: 'another tree' });
  }
  it.verdicts.V8 = it.balanced && parsers.byV8(text);
  if (parsers.typescript) it.verdicts.TypeScript = it.balanced && parsers.byTypescript(text);
  if (!whole) return;
  const { verdict, how } = oxc.judge(whole, it);
  it.verdicts.oxc = verdict;
  if (how) it.unlike.push({ judge: 'oxc', how });
}

// What each judge says otherwise than the reader, once all verdicts are there.
function compare(it) {
  for (const [name, verdict] of Object.entries(it.verdicts)) {
    if (name === 'oxc') continue; // it is held to the reader itself
    if (verdict !== null && verdict !== undefined && verdict !== it.standard.clean) it.unlike.push({ judge: name, how: verdict ? 'accepts' : 'refuses' });
  }
}

// Lists with the readers' answers, all judged.
function judged(lines, reader) {
  const answers = ask(reader, lines);
  const plains = ask(PLAIN, lines);
  const cases = lines.map((line, i) => caseOf(line, answers[i], plains[i]));
  const inside = cases.filter((it) => !it.outside);
  inside.forEach(judge);
  if (parsers.hasSpiderMonkey) {
    const asked = inside.filter((it) => it.balanced);
    const said = parsers.bySpiderMonkey(asked.map((it) => it.spelled.text));
    inside.forEach((it) => (it.verdicts.SpiderMonkey = false));
    asked.forEach((it, i) => (it.verdicts.SpiderMonkey = said[i]));
  }
  inside.forEach(compare);
  return cases;
}

const hex = (numbers) => numbers.map((n) => n.toString(16).padStart(2, '0')).join('');

// All lists with one to eight neighbouring tokens or a matching pair of brackets left out, or a token replaced by a simpler one.
function smaller(kinds, flags) {
  const out = [];
  const without = (drop) => [kinds.filter((_, i) => !drop(i)), flags.filter((_, i) => !drop(i))];
  for (const length of [256, 64, 16, 8, 5, 4, 3, 2, 1]) {
    for (let at = 0; length < kinds.length && at + length <= kinds.length && out.length < 4000; at++) out.push(without((i) => i >= at && i < at + length));
  }
  const open = [];
  kinds.forEach((k, at) => {
    if (k === 18 || k === 20 || k === 22) open.push(at);
    if ((k === 19 || k === 21 || k === 23) && open.length) {
      const from = open.pop();
      out.push(without((i) => i === from || i === at));
      out.push([[...kinds.slice(0, from), 1, ...kinds.slice(at + 1)], [...flags.slice(0, from), 0, ...flags.slice(at + 1)]]);
    }
  });
  kinds.forEach((k, at) => {
    const simple = k > 1 && k <= 15 ? 1 : k >= 39 && k <= 62 && k !== 57 ? 57 : k >= 65 ? 64 : 0;
    if (simple) out.push([kinds.map((old, i) => (i === at ? simple : old)), flags]);
    if (flags[at]) out.push([kinds, flags.map((old, i) => (i === at ? 0 : old))]);
  });
  return out.filter(([k]) => k.length);
}

// The smallest list found with the same disagreement that fits no class.
function minimize(it, unlike) {
  let best = it;
  for (;;) {
    const tries = smaller(best.kinds, best.flags);
    tries.sort((a, b) => a[0].length - b[0].length);
    let next = null;
    for (let at = 0; at < tries.length && !next; at += 300) {
      const lines = tries.slice(at, at + 300).map(([k, f]) => `${it.pattern ? 'p' : 'r'} ${hex(k)} ${hex(f)}`);
      next = judged(lines, options.reader).find((one) => one.unlike.some((u) => u.judge === unlike.judge && u.how === unlike.how && !classOf(one, u)));
    }
    if (!next) return best;
    best = next;
  }
}

const totals = { lists: 0, clean: 0, trees: 0, refused: 0, records: 0, early: 0, outside: {}, classes: {}, gaveUp: {} };
const unknown = {};

// What is shown of a list.
function sampleOf(it) {
  return { length: it.kinds.length, text: it.spelled ? it.spelled.text.replace(/\n/g, ' ↵ ') : it.line, reader: it.reader.slice(0, 60) };
}

// The shorter of two samples; of two that are as long, always the same one.
const smallerOf = (a, b) => (!a || b.length < a.length || (b.length === a.length && b.text < a.text) ? b : a);

// Puts each disagreement of a list into its class.
function sort(it) {
  for (const unlike of it.unlike) {
    const known = classOf(it, unlike);
    const name = known || 'UNKNOWN ' + unlike.judge + ' ' + unlike.how + (it.ours.read ? '' : ' ours ' + it.ours.number);
    const entry = (totals.classes[name] ||= { count: 0, smallest: null });
    entry.count += 1;
    if (!entry.smallest || it.kinds.length <= entry.smallest.length) entry.smallest = smallerOf(entry.smallest, sampleOf(it));
    if (known) continue;
    const list = (unknown[name] ||= []);
    if (list.length < 6) list.push([it.line, unlike]);
  }
}

function tally(it) {
  totals.lists += 1;
  if (it.outside) totals.outside[it.outside] = (totals.outside[it.outside] || 0) + 1;
  else {
    if (it.ours.clean) totals.clean += 1;
    else if (it.ours.read) totals.records += 1;
    else totals.refused += 1;
    if (it.early && it.ours.clean !== it.standard.clean) totals.early += 1;
    for (const [name, verdict] of Object.entries(it.verdicts)) {
      if (verdict === null) totals.gaveUp[name] = (totals.gaveUp[name] || 0) + 1;
    }
    if (it.standard.clean) totals.trees += ['acorn', 'babel'].filter((name) => it.verdicts[name]).length;
    if (it.ours.clean && it.verdicts.oxc) totals.trees += 1;
  }
  sort(it);
}

// All strict judges say what the reader says. TypeScript's parser alone is none: it leaves late checks to its checker.
function agreed(it) {
  return !it.outside && it.unlike.every((u) => u.judge === 'TypeScript') &&
    Object.entries(it.verdicts).every(([name, verdict]) => name === 'TypeScript' || verdict === it.ours.clean);
}

// The batches of a run that are this process's share, as lines.
function* batches(run) {
  const [sort, ...numbers] = run.split(':');
  const size = Number(options.batch);
  const isRandom = sort === 'random' || sort === 'pattern';
  const [seed, asked, longest] = numbers.map(Number);
  const all = isRandom ? null : execFileSync(LISTS, [sort, ...numbers], BIG).trim().split('\n');
  const count = isRandom ? asked : all.length;
  const step = isRandom ? Math.max(200, Math.min(size, Math.floor((size * 64) / longest))) : size;
  for (let from = Number(options.share) * step; from < count; from += Number(options.jobs) * step) {
    if (!isRandom) yield all.slice(from, from + step);
    else yield execFileSync(LISTS, [sort, seed, from, Math.min(step, count - from), longest].map(String), BIG).trim().split('\n');
  }
}

const tell = (message) => new Promise((done) => process.send(message, done));

// Judges this process's share of all runs; tells how far it is, and at last what it saw.
async function work() {
  whole = await oxc.load();
  for (const run of runs) {
    for (const lines of batches(run)) {
      const cases = judged(lines, options.reader);
      cases.forEach(tally);
      if (options.keep) fs.appendFileSync(options.keep, cases.filter(agreed).map((it) => it.line + ' > ' + it.reader + '\n').join(''));
      await tell({ run, done: lines.length, unknown: Object.values(unknown).flat().length });
    }
  }
  await tell({ totals, unknown });
  process.disconnect();
}

// Adds the counts of one share to the whole.
function add(into, from) {
  for (const [name, count] of Object.entries(from)) {
    if (typeof count === 'object') add((into[name] ||= {}), count);
    else into[name] = (into[name] || 0) + count;
  }
}

// Adds what one share saw.
function take(seen) {
  for (const [name, { count, smallest }] of Object.entries(seen.totals.classes)) {
    const entry = (totals.classes[name] ||= { count: 0, smallest });
    entry.count += count;
    entry.smallest = smallerOf(entry.smallest, smallest);
  }
  add(totals, { ...seen.totals, classes: {} });
  for (const [name, list] of Object.entries(seen.unknown)) unknown[name] = [...(unknown[name] || []), ...list].slice(0, 6);
}

let whole = null; // oxc-parser, where it is installed
const begun = Date.now();
const progress = {}; // the lists judged of each run
const strangers = []; // the unknown disagreements of each share

// Shows how far the runs are.
function show(share, { run, done, unknown: strange }) {
  progress[run] = (progress[run] || 0) + done;
  strangers[share] = strange;
  const found = strangers.reduce((a, b) => a + b, 0);
  process.stderr.write(`\r${run}: ${progress[run]} lists, ${Math.round((Date.now() - begun) / 1000)} s, ${found} unknown   `);
}

// One process that judges a share. It must come to its end.
function startShare(share) {
  return new Promise((done, fail) => {
    const child = fork(__filename, [...process.argv.slice(2), '--share', String(share)]);
    let ended = false;
    child.on('message', (message) => {
      if (message.totals) take(message);
      else show(share, message);
      ended ||= !!message.totals;
    });
    child.on('close', (code) => (ended && code === 0 ? done() : fail(new Error('a judging process stopped: ' + code))));
  });
}

// Prints the sums and the classes.
function report() {
  console.log(`lists ${totals.lists}; judged: clean ${totals.clean}, with records ${totals.records}, refused ${totals.refused}; trees compared ${totals.trees}; ` +
    `calls that the early commit refuses ${totals.early}`);
  for (const [why, count] of Object.entries(totals.outside).sort()) console.log(`outside the comparison: ${why}: ${count}`);
  for (const [name, count] of Object.entries(totals.gaveUp).sort()) console.log(`gave up: ${name}: ${count}`);
  for (const [name, { count, smallest }] of Object.entries(totals.classes).sort()) {
    console.log(`${name}: ${count}; smallest seen: ${smallest.text.slice(0, 160)}   (${smallest.reader})`);
  }
}

// Prints the disagreements of one sort that fit no class, each made small.
function reportUnknown(name, list) {
  const shown = new Set();
  for (const [line, unlike] of list) {
    const least = minimize(judged([line], options.reader)[0], unlike);
    const verdicts = least.verdicts ? Object.entries(least.verdicts).map(([judge, v]) => judge + ' ' + v).join(', ') : '';
    const text = `  ${least.spelled ? least.spelled.text.replace(/\n/g, ' ↵ ') : ''}   ${least.line}   ${least.reader.slice(0, 80)}   [${verdicts}]`;
    if (!shown.has(text)) console.log((shown.size ? '' : name + ', made small:\n') + text);
    shown.add(text);
  }
}

// Has all runs judged, and says how it went.
async function main() {
  whole = await oxc.load();
  const versions = { ...parsers.versions, 'oxc-parser': whole && whole.version };
  console.log('judges: ' + Object.entries(versions).map(([name, version]) => `${name} ${version || '(not there)'}`).join(', '));
  if (options.keep) fs.writeFileSync(options.keep, '');
  await Promise.all(Array.from({ length: Number(options.jobs) }, (_, share) => startShare(share)));
  process.stderr.write('\n');
  report();
  const fails = Object.entries(unknown);
  fails.forEach(([name, list]) => reportUnknown(name, list));
  console.log(fails.length ? 'FAILED: disagreements of no known class' : 'every disagreement is of a known class');
  process.exitCode = fails.length ? 1 : 0;
}

if (options.share === null) main();
else work();
