// Times acorn, babel and V8 over the sheets of each family, spelled as JavaScript: nanoseconds a token, best of many rounds, in turns. They lex the
// text too, so this is context, no comparison. V8 also compiles what is not inside of a function; its cache of scripts must be off.
//
//     sheets | node --no-compilation-cache context.js ROUNDS TIMES       TIMES: the table of `bench`, whose times of the archive are put beside
'use strict';
const fs = require('fs');
const { spell } = require('../readers/spell.js');
const { byAcorn, byBabel, byV8, versions } = require('../readers/parsers.js');

const PARSERS = { acorn: byAcorn, babel: byBabel, V8: byV8 };

// The families by name, from the lines of `sheets`: their texts and how many tokens these have.
function families(lines) {
  const found = new Map();
  for (const line of lines) {
    const [name, question] = line.split('\t');
    const [kinds, flags] = question.split(' ').slice(1).map((hex) => [...Buffer.from(hex, 'hex')]);
    if (!found.has(name)) found.set(name, { texts: [], tokens: 0 });
    const family = found.get(name);
    family.texts.push(spell(kinds, flags).text);
    family.tokens += kinds.length;
  }
  return found;
}

// A column of a table in Markdown, by the first one.
function column(table, head) {
  const rows = table.split('\n').filter((line) => line.startsWith('|')).map((line) => line.split('|').slice(1, -1).map((cell) => cell.trim()));
  const at = rows[0].indexOf(head);
  return new Map(rows.slice(2).map((row) => [row[0], row[at]]));
}

// The best time of each parser that takes all texts, for a token; null for the others.
function best({ texts, tokens }, rounds) {
  const times = {};
  for (const name in PARSERS) times[name] = texts.every((text) => PARSERS[name](text)) ? Infinity : null;
  for (let round = 0; round < rounds; round++) {
    for (const name in PARSERS) {
      if (times[name] === null) continue;
      const begun = process.hrtime.bigint();
      for (const text of texts) PARSERS[name](text);
      times[name] = Math.min(times[name], Number(process.hrtime.bigint() - begun) / tokens);
    }
  }
  return times;
}

function main() {
  const [rounds, file] = process.argv.slice(2);
  const archive = column(fs.readFileSync(file, 'utf8'), 'archive');
  const found = families(fs.readFileSync(0, 'utf8').trim().split('\n'));
  const names = Object.keys(PARSERS);
  console.log(`Nanoseconds a token, best of ${rounds} rounds: ${names.map((name) => `${name} ${versions[name]}`).join(', ')}.\n`);
  console.log(`| ${'family'.padEnd(24)} | archive | ${names.map((name) => name.padStart(8)).join(' | ')} |`);
  console.log(`|${'-'.repeat(26)}|--------:|${names.map(() => '---------:|').join('')}`);
  for (const family of found.values()) best(family, Number(rounds) / 4); // until the parsers run as compiled code
  for (const [name, family] of found) {
    const cells = Object.values(best(family, Number(rounds))).map((time) => (time === null ? '' : time.toFixed(0)).padStart(8));
    console.log(`| ${name.padEnd(24)} | ${(archive.get(name) ?? '').padStart(7)} | ${cells.join(' | ')} |`);
  }
}

main();
