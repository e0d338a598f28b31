// The rows of RULES R from an ESTree, so that a whole tree can be held to the tree of acorn, babel or oxc-parser.
'use strict';

// The kinds of names and patterns, by what they are: an expression, a target or a binding.
const EXPRESSION = 0;
const TARGET = 1;
const BINDING = 2;
const NAME = [1, 40, 30];

class Rows {
  // `shift` is how far the text was moved to the right; `kinds` are given for a tree without parentheses in targets.
  constructor(spelled, { shift = 0, kinds = [] } = {}) {
    this.starts = spelled.starts;
    this.ends = spelled.ends;
    this.shift = shift;
    this.kinds = kinds;
    this.words = [];
    this.count = 0;
  }

  first(node) {
    return this.starts.get(node.start - this.shift);
  }

  end(node) {
    return this.ends.get(node.end - this.shift);
  }

  // The place after a target, past the parentheses that its tree has dropped.
  past(node) {
    let place = this.end(node);
    while (this.kinds[place] === 19) place += 1;
    return place;
  }

  push(kind, mark, first, end, kids, from) {
    this.count += 1;
    this.words.push(kind, mark, first, end, kids, this.count - from);
  }

  leaf(kind, place) {
    this.push(kind, place, place, place + 1, 0, this.count);
  }

  // A row over what `parts` writes.
  over(kind, mark, node, kids, parts) {
    const from = this.count;
    parts();
    this.push(kind, mark, this.first(node), this.end(node), kids, from);
  }

  all(list, side) {
    for (const node of list) this.put(node, side);
  }

  // The elements of an array, with a hole for each comma where an element could stand.
  elements(node, side) {
    let place = this.first(node) + 1;
    for (const element of node.elements) {
      if (element === null) {
        this.leaf(9, place);
        place += 1;
      } else {
        this.put(element, side);
        place = this.past(element) + 1;
      }
    }
  }

  // Whether a comma stands after the last part, which is a spread.
  restComma(node, parts) {
    const last = parts[parts.length - 1];
    return last && last.type === 'SpreadElement' && this.end(last) < this.end(node) - 1;
  }

  property(node, side) {
    const first = this.first(node);
    if (node.shorthand) {
      const init = node.value.type === 'AssignmentPattern';
      const kind = (init ? [12, 50, 36] : [11, 49, 35])[side];
      return this.over(kind, init ? first + 1 : first, node, init ? 2 : 1, () => {
        this.leaf(NAME[side], first);
        if (init) this.put(node.value.right, EXPRESSION);
      });
    }
    return this.over([13, 48, 13][side], first, node, 2, () => {
      if (node.computed) {
        const from = this.count;
        this.put(node.key, EXPRESSION);
        this.push(15, first, first, this.end(node.key) + 1, 1, from);
      } else this.leaf(14, first);
      this.put(node.value, side);
    });
  }

  put(node, side) {
    const write = WRITE[node.type];
    if (!write) throw new Error('no rows for ' + node.type);
    write(this, node, this.first(node), side);
  }
}

const two = (kind) => (r, node) => r.over(kind, r.end(node.left), node, 2, () => r.all([node.left, node.right], EXPRESSION));

const WRITE = {
  Identifier: (r, node, first, side) => r.leaf(NAME[side], first),
  ThisExpression: (r, node, first) => r.leaf(2, first),
  Literal: (r, node, first) => r.leaf(3, first),
  ParenthesizedExpression: (r, node, first, side) => r.over(side ? 41 : 4, first, node, 1, () => r.put(node.expression, side)),
  ArrayExpression: (r, node, first) =>
    r.over(r.restComma(node, node.elements) ? 6 : 5, first, node, node.elements.length, () => r.elements(node, EXPRESSION)),
  ObjectExpression: (r, node, first) =>
    r.over(r.restComma(node, node.properties) ? 8 : 7, first, node, node.properties.length, () => r.all(node.properties, EXPRESSION)),
  ArrayPattern: (r, node, first, side) => r.over([0, 42, 31][side], first, node, node.elements.length, () => r.elements(node, side)),
  ObjectPattern: (r, node, first, side) => r.over([0, 43, 32][side], first, node, node.properties.length, () => r.all(node.properties, side)),
  Property: (r, node, first, side) => r.property(node, side),
  SpreadElement: (r, node, first) => r.over(10, first, node, 1, () => r.put(node.argument, EXPRESSION)),
  RestElement: (r, node, first, side) => r.over([0, 44, 33][side], first, node, 1, () => r.put(node.argument, side)),
  AssignmentPattern: (r, node, first, side) =>
    r.over([0, 45, 34][side], r.past(node.left), node, 2, () => {
      r.put(node.left, side);
      r.put(node.right, EXPRESSION);
    }),
  MemberExpression: (r, node, first, side) => {
    if (!node.computed) return r.over(side ? 46 : 16, r.first(node.property), node, 1, () => r.put(node.object, EXPRESSION));
    return r.over(side ? 47 : 17, first, node, 2, () => r.all([node.object, node.property], EXPRESSION));
  },
  CallExpression: (r, node, first) => r.over(18, first, node, 1 + node.arguments.length, () => r.all([node.callee, ...node.arguments], EXPRESSION)),
  UnaryExpression: (r, node, first) => r.over(19, first, node, 1, () => r.put(node.argument, EXPRESSION)),
  UpdateExpression: (r, node, first) =>
    r.over(node.prefix ? 20 : 21, node.prefix ? first : r.end(node) - 1, node, 1, () => r.put(node.argument, TARGET)),
  BinaryExpression: two(22),
  LogicalExpression: two(23),
  ConditionalExpression: (r, node) =>
    r.over(24, r.end(node.test), node, 3, () => r.all([node.test, node.consequent, node.alternate], EXPRESSION)),
  AssignmentExpression: (r, node) =>
    r.over(node.operator === '=' ? 25 : 26, r.past(node.left), node, 2, () => {
      r.put(node.left, TARGET);
      r.put(node.right, EXPRESSION);
    }),
  SequenceExpression: (r, node) =>
    r.over(27, r.end(node.expressions[0]), node, node.expressions.length, () => r.all(node.expressions, EXPRESSION)),
  ArrowFunctionExpression: (r, node) =>
    r.over(node.async ? 29 : 28, r.first(node.body) - 1, node, node.params.length + 1, () => {
      r.all(node.params, BINDING);
      r.put(node.body, EXPRESSION);
    }),
};

// The words of all rows of a tree; of a binding, those of the arrow's one parameter.
function rowsOf(tree, spelled, pattern, how) {
  const rows = new Rows(spelled, how);
  if (pattern) rows.all(tree.params, BINDING);
  else rows.put(tree, EXPRESSION);
  return rows.words;
}

module.exports = { rowsOf };
