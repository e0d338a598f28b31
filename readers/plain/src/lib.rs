//! The plain reader of demand 3: wherever the assignment level starts at `(` or Async it tries an arrow's head, else goes the way past; it
//! has no lookahead and remembers nothing. It builds trees on the heap, converts them as trees and writes the rows at the very end, so
//! that it shares nothing with a reader over lent rows but the rules.
use std::collections::BTreeSet;

/// A refusal: number and place.
pub type Refused = (u32, usize);

/// A tree before it becomes rows.
#[derive(Clone, Debug)]
pub struct Tree {
    pub kind: u32,
    pub mark: usize,
    pub first: usize,
    pub end: usize,
    pub kids: Vec<Tree>,
}

/// What came out: the rows' words, the records, and the places at which heads were given up.
pub struct Reading {
    pub words: Vec<u32>,
    pub records: Vec<(u32, usize)>,
    pub given_up: BTreeSet<usize>,
}

/// The plain reader is exponential in nested defaults: past this many steps it stops.
pub const STEPS: u64 = 200_000;

#[derive(Debug)]
pub enum Outcome {
    Refused(Refused),
    TooLong,
}

type Got<T> = Result<T, Outcome>;

/// Tokens by their spelling in RULES T4.
#[rustfmt::skip]
const SPELLED: [(&str, u8); 24] = [
    ("async", 2), ("this", 7), ("(", 18), (")", 19), ("[", 20), ("]", 21), ("{", 22), ("}", 23), (",", 24), (":", 25), ("?", 26),
    (".", 27), ("...", 28), ("=>", 29), ("++", 36), ("--", 37), ("??", 38), ("||", 39), ("&&", 40), ("**", 62), ("=", 63), ("+", 57),
    ("-", 58), ("**=", 78),
];

/// The kind of a spelled token.
const fn k(text: &str) -> u8 {
    let mut i = 0;
    while i < SPELLED.len() {
        let (have, want) = (SPELLED[i].0.as_bytes(), text.as_bytes());
        let mut same = have.len() == want.len();
        let mut j = 0;
        while same && j < want.len() {
            same = have[j] == want[j];
            j += 1;
        }
        if same {
            return SPELLED[i].1;
        }
        i += 1;
    }
    panic!("not spelled")
}

fn is_name(kind: u8) -> bool {
    (1..=5).contains(&kind)
}

fn is_word(kind: u8) -> bool {
    (1..=10).contains(&kind) || (14..=17).contains(&kind) || (32..=35).contains(&kind) || kind == 52 || kind == 53
}

/// The operators of each tier, from the loosest (13.13) to the tightest but `**` (13.7).
#[rustfmt::skip]
const TIERS: [&[u8]; 11] = [
    &[38], &[39], &[40], &[41], &[42], &[43], &[44, 45, 46, 47], &[48, 49, 50, 51, 52, 53], &[54, 55, 56], &[57, 58], &[59, 60, 61],
];

fn leaf(kind: u32, at: usize) -> Tree {
    Tree { kind, mark: at, first: at, end: at + 1, kids: Vec::new() }
}

struct Plain<'a> {
    kinds: &'a [u8],
    flags: &'a [u8],
    at: usize,
    records: Vec<(u32, usize)>,
    given_up: BTreeSet<usize>,
    steps: u64,
}

/// Reads a list that passed the first seven checks; `pattern` for the pattern entry.
pub fn read(kinds: &[u8], flags: &[u8], pattern: bool) -> Got<Reading> {
    let mut p = Plain { kinds, flags, at: 0, records: Vec::new(), given_up: BTreeSet::new(), steps: 0 };
    let tree = if pattern { p.element() } else { p.expression() }?;
    if p.at != kinds.len() {
        return p.wrong();
    }
    unconverted(&tree, &mut p.records);
    let mut words = Vec::new();
    flat(&tree, &mut words);
    Ok(Reading { words, records: p.records, given_up: p.given_up })
}

/// The rows of a tree, kids first; returns their number.
fn flat(tree: &Tree, words: &mut Vec<u32>) -> u32 {
    let size = 1 + tree.kids.iter().map(|kid| flat(kid, words)).sum::<u32>();
    let [mark, first, end] = [tree.mark, tree.first, tree.end].map(|n| n as u32);
    words.extend([tree.kind, mark, first, end, tree.kids.len() as u32, size]);
    size
}

/// Record 8: each ShorthandInit that is left, in row order.
fn unconverted(tree: &Tree, records: &mut Vec<(u32, usize)>) {
    for kid in &tree.kids {
        unconverted(kid, records);
    }
    if tree.kind == 12 {
        records.push((8, tree.mark));
    }
}

impl Plain<'_> {
    fn peek(&self, more: usize) -> u8 {
        *self.kinds.get(self.at + more).unwrap_or(&0)
    }

    fn broken(&self, more: usize) -> bool {
        self.flags.get(self.at + more) == Some(&1)
    }

    fn wrong<T>(&self) -> Got<T> {
        Err(Outcome::Refused((8, self.at)))
    }

    fn eat(&mut self, kind: u8) -> bool {
        let here = self.peek(0) == kind;
        self.at += here as usize;
        here
    }

    fn want(&mut self, kind: u8) -> Got<()> {
        if self.eat(kind) { Ok(()) } else { self.wrong() }
    }

    fn node(&self, kind: u32, mark: usize, first: usize, kids: Vec<Tree>) -> Tree {
        Tree { kind, mark, first, end: self.at, kids }
    }

    /// Expression: AssignmentExpressions with commas between.
    fn expression(&mut self) -> Got<Tree> {
        let first = self.at;
        let mut parts = vec![self.assignment()?];
        let mark = self.at;
        while self.eat(k(",")) {
            parts.push(self.assignment()?);
        }
        Ok(if parts.len() == 1 { parts.remove(0) } else { self.node(27, mark, first, parts) })
    }

    /// AssignmentExpression: try the head, else the way past.
    fn assignment(&mut self) -> Got<Tree> {
        self.steps += 1;
        if self.steps > STEPS {
            return Err(Outcome::TooLong);
        }
        if self.peek(0) == k("(") || self.peek(0) == k("async") {
            let (first, records) = (self.at, self.records.len());
            match self.head() {
                Ok(parameters) => return self.body(if self.kinds[first] == k("async") { 29 } else { 28 }, first, parameters),
                Err(Outcome::TooLong) => return Err(Outcome::TooLong),
                Err(Outcome::Refused(_)) => {
                    self.given_up.insert(first);
                    self.at = first;
                    self.records.truncate(records);
                }
            }
        }
        self.past()
    }

    /// What is left of the assignment level: arrows of one name, assignments, conditionals.
    fn past(&mut self) -> Got<Tree> {
        let first = self.at;
        if self.peek(0) == k("async") && is_name(self.peek(1)) && !self.broken(1) && self.peek(2) == k("=>") {
            self.at += 2;
            let name = leaf(30, first + 1);
            self.arrow()?;
            return self.body(29, first, vec![name]);
        }
        let left = self.tier(0)?;
        let mark = self.at;
        if self.peek(0) == k("=>") && left.kind == 1 {
            self.arrow()?;
            return self.body(28, first, vec![leaf(30, first)]);
        }
        if (k("=")..=k("**=")).contains(&self.peek(0)) {
            let plain = self.peek(0) == k("=");
            let target = self.target(left, plain)?;
            self.at += 1;
            let right = self.assignment()?;
            return Ok(self.node(if plain { 25 } else { 26 }, mark, first, vec![target, right]));
        }
        if self.eat(k("?")) {
            let yes = self.assignment()?;
            self.want(k(":"))?;
            let no = self.assignment()?;
            return Ok(self.node(24, mark, first, vec![left, yes, no]));
        }
        Ok(left)
    }

    /// A head in parentheses with its `=>`: the parameters.
    fn head(&mut self) -> Got<Vec<Tree>> {
        if self.eat(k("async")) && self.broken(0) {
            return self.wrong();
        }
        self.want(k("("))?;
        let mut parameters = Vec::new();
        while self.peek(0) != k(")") {
            if self.peek(0) == k("...") {
                parameters.push(self.rest(k(")"), false)?);
                break;
            }
            parameters.push(self.element()?);
            if self.peek(0) != k(")") {
                self.want(k(","))?;
            }
        }
        self.want(k(")"))?;
        self.arrow()?;
        Ok(parameters)
    }

    /// `=>`, with record 1 for a break before it.
    fn arrow(&mut self) -> Got<()> {
        let (at, broken) = (self.at, self.broken(0));
        self.want(k("=>"))?;
        if broken {
            self.records.push((1, at));
        }
        Ok(())
    }

    fn body(&mut self, kind: u32, first: usize, mut kids: Vec<Tree>) -> Got<Tree> {
        let mark = self.at - 1;
        if self.peek(0) == k("{") {
            return self.wrong();
        }
        kids.push(self.assignment()?);
        Ok(self.node(kind, mark, first, kids))
    }

    /// The tiers of binary operators, each a left-recursive production.
    fn tier(&mut self, tier: usize) -> Got<Tree> {
        let operators = match TIERS.get(tier) {
            Some(operators) => operators,
            None => return self.power(),
        };
        let first = self.at;
        let mut left = self.tier(tier + 1)?;
        while operators.contains(&self.peek(0)) {
            let mark = self.at;
            self.at += 1;
            let right = self.tier(tier + 1)?;
            let mixed = |side: &Tree| side.kind == 23 && self.kinds[side.mark] != k("??");
            let record = tier == 0 && (mixed(&left) || mixed(&right));
            left = self.node(if tier < 3 { 23 } else { 22 }, mark, first, vec![left, right]);
            if record {
                self.records.push((6, mark));
            }
        }
        Ok(left)
    }

    /// 13.6: `**` groups right; a Unary at its left is record 7.
    fn power(&mut self) -> Got<Tree> {
        let first = self.at;
        let left = self.unary()?;
        let mark = self.at;
        if !self.eat(k("**")) {
            return Ok(left);
        }
        let right = self.power()?;
        if left.kind == 19 {
            self.records.push((7, mark));
        }
        Ok(self.node(22, mark, first, vec![left, right]))
    }

    fn unary(&mut self) -> Got<Tree> {
        let first = self.at;
        match self.peek(0) {
            30..=34 | 57 | 58 => {
                self.at += 1;
                let operand = self.unary()?;
                Ok(self.node(19, first, first, vec![operand]))
            }
            36 | 37 => {
                self.at += 1;
                let operand = self.unary()?;
                let target = self.target(operand, false)?;
                Ok(self.node(20, first, first, vec![target]))
            }
            _ => self.postfix(),
        }
    }

    fn postfix(&mut self) -> Got<Tree> {
        let first = self.at;
        let left = self.member()?;
        if (self.peek(0) == k("++") || self.peek(0) == k("--")) && !self.broken(0) {
            let target = self.target(left, false)?;
            self.at += 1;
            return Ok(self.node(21, self.at - 1, first, vec![target]));
        }
        Ok(left)
    }

    /// 13.3: members, indexes and calls.
    fn member(&mut self) -> Got<Tree> {
        let first = self.at;
        let mut left = self.primary()?;
        loop {
            if self.eat(k(".")) {
                if !is_word(self.peek(0)) {
                    return self.wrong();
                }
                self.at += 1;
                left = self.node(16, self.at - 1, first, vec![left]);
            } else if self.eat(k("[")) {
                let index = self.expression()?;
                self.want(k("]"))?;
                left = self.node(17, first, first, vec![left, index]);
            } else if self.eat(k("(")) {
                let mut kids = vec![left];
                self.list(k(")"), &mut kids, Self::argument)?;
                left = self.node(18, first, first, kids);
            } else {
                return Ok(left);
            }
        }
    }

    /// Parts with commas between up to the closing token; true if a comma stands before it.
    fn list(&mut self, close: u8, kids: &mut Vec<Tree>, part: fn(&mut Self) -> Got<Tree>) -> Got<bool> {
        let mut comma = false;
        while !self.eat(close) {
            let one = part(self)?;
            let hole = one.kind == 9;
            kids.push(one);
            comma = !hole && self.eat(k(","));
            if !hole && !comma && self.peek(0) != close {
                return self.wrong();
            }
        }
        Ok(comma)
    }

    fn argument(&mut self) -> Got<Tree> {
        let first = self.at;
        if self.eat(k("...")) {
            let kid = self.assignment()?;
            return Ok(self.node(10, first, first, vec![kid]));
        }
        self.assignment()
    }

    fn array_part(&mut self) -> Got<Tree> {
        if self.eat(k(",")) {
            return Ok(leaf(9, self.at - 1));
        }
        self.argument()
    }

    fn object_part(&mut self) -> Got<Tree> {
        if self.peek(0) == k("...") { self.argument() } else { self.property() }
    }

    fn primary(&mut self) -> Got<Tree> {
        let first = self.at;
        let kind = self.peek(0);
        if is_name(kind) || (7..=13).contains(&kind) {
            self.at += 1;
            return Ok(leaf(
                if is_name(kind) {
                    1
                } else if kind == k("this") {
                    2
                } else {
                    3
                },
                first,
            ));
        }
        let mut kids = Vec::new();
        if self.eat(k("(")) {
            kids.push(self.expression()?);
            self.want(k(")"))?;
            return Ok(self.node(4, first, first, kids));
        }
        let literal = if self.eat(k("[")) {
            5 + self.list(k("]"), &mut kids, Self::array_part)? as u32
        } else if self.eat(k("{")) {
            7 + self.list(k("}"), &mut kids, Self::object_part)? as u32
        } else {
            return self.wrong();
        };
        let spread = kids.last().map_or(false, |last| last.kind == 10);
        let kind = if spread { literal } else { literal - (literal + 1) % 2 };
        Ok(self.node(kind, first, first, kids))
    }

    /// A shorthand with or without an initializer, by the kinds of its rows, or none if a key stands here.
    fn shorthand(&mut self, [name, alone, with]: [u32; 3]) -> Got<Option<Tree>> {
        let first = self.at;
        if !is_name(self.peek(0)) || self.peek(1) == k(":") {
            return Ok(None);
        }
        self.at += 1;
        let kid = leaf(name, first);
        let mark = self.at;
        if self.eat(k("=")) {
            let init = self.assignment()?;
            return Ok(Some(self.node(with, mark, first, vec![kid, init])));
        }
        Ok(Some(self.node(alone, first, first, vec![kid])))
    }

    fn property(&mut self) -> Got<Tree> {
        let first = self.at;
        if let Some(short) = self.shorthand([1, 11, 12])? {
            return Ok(short);
        }
        let key = self.key()?;
        self.want(k(":"))?;
        let value = self.assignment()?;
        Ok(self.node(13, first, first, vec![key, value]))
    }

    fn key(&mut self) -> Got<Tree> {
        let first = self.at;
        let kind = self.peek(0);
        if is_word(kind) || kind == 11 || kind == 12 {
            self.at += 1;
            return Ok(leaf(14, first));
        }
        self.want(k("["))?;
        let inner = self.assignment()?;
        self.want(k("]"))?;
        Ok(self.node(15, first, first, vec![inner]))
    }

    /// A binding with an optional initializer.
    fn element(&mut self) -> Got<Tree> {
        let first = self.at;
        let binding = self.binding()?;
        let mark = self.at;
        if self.eat(k("=")) {
            let init = self.assignment()?;
            return Ok(self.node(34, mark, first, vec![binding, init]));
        }
        Ok(binding)
    }

    fn binding(&mut self) -> Got<Tree> {
        let first = self.at;
        if is_name(self.peek(0)) {
            self.at += 1;
            return Ok(leaf(30, first));
        }
        let mut kids = Vec::new();
        if self.eat(k("[")) {
            self.list(k("]"), &mut kids, Self::binding_array_part)?;
            return Ok(self.node(31, first, first, kids));
        }
        self.want(k("{"))?;
        self.list(k("}"), &mut kids, Self::binding_object_part)?;
        Ok(self.node(32, first, first, kids))
    }

    fn binding_array_part(&mut self) -> Got<Tree> {
        if self.eat(k(",")) {
            return Ok(leaf(9, self.at - 1));
        }
        if self.peek(0) == k("...") { self.rest(k("]"), false) } else { self.element() }
    }

    fn binding_object_part(&mut self) -> Got<Tree> {
        if self.peek(0) == k("...") {
            return self.rest(k("}"), true);
        }
        let first = self.at;
        if let Some(short) = self.shorthand([30, 35, 36])? {
            return Ok(short);
        }
        let key = self.key()?;
        self.want(k(":"))?;
        let value = self.element()?;
        Ok(self.node(13, first, first, vec![key, value]))
    }

    /// A binding rest, which its closing token must follow (12); in objects a bare name (11).
    fn rest(&mut self, close: u8, bare: bool) -> Got<Tree> {
        let first = self.at;
        self.at += 1;
        let argument = self.element()?;
        if argument.kind == 34 {
            self.records.push((2, argument.mark));
        }
        if self.peek(0) != close {
            return Err(Outcome::Refused((12, self.at)));
        }
        if bare && argument.kind != 30 {
            return Err(Outcome::Refused((11, argument.first)));
        }
        Ok(self.node(33, first, first, vec![argument]))
    }

    /// Conversion of a tree to a simple target, or to any.
    fn target(&mut self, mut tree: Tree, any: bool) -> Got<Tree> {
        match tree.kind {
            1 => tree.kind = 40,
            16 => tree.kind = 46,
            17 => tree.kind = 47,
            4 if !(5..=8).contains(&tree.kids[0].kind) => {
                let kid = tree.kids.remove(0);
                tree.kids.push(self.target(kid, false)?);
                tree.kind = 41;
            }
            5..=8 if any => return self.pattern(tree),
            _ => return Err(Outcome::Refused((9, tree.first))),
        }
        Ok(tree)
    }

    /// An element or a property's value: a target with an optional default.
    fn target_element(&mut self, mut tree: Tree) -> Got<Tree> {
        match tree.kind {
            25 => tree.kind = 45,
            26 => {
                self.records.push((5, tree.mark));
                tree.kind = 45;
            }
            _ => return self.target(tree, true),
        }
        Ok(tree)
    }

    /// A literal into a pattern, its parts from left to right.
    fn pattern(&mut self, mut tree: Tree) -> Got<Tree> {
        let object = tree.kind >= 7;
        let comma = tree.kind % 2 == 0;
        let count = tree.kids.len();
        for (i, mut kid) in std::mem::take(&mut tree.kids).into_iter().enumerate() {
            kid = match kid.kind {
                9 => kid,
                10 if i + 1 < count => return Err(Outcome::Refused((10, kid.first))),
                10 => self.target_rest(kid, object, comma.then_some(tree.first))?,
                11 | 12 => {
                    kid.kids[0].kind = 40;
                    Tree { kind: kid.kind + 38, ..kid }
                }
                13 => {
                    let value = kid.kids.remove(1);
                    kid.kids.push(self.target_element(value)?);
                    Tree { kind: 48, ..kid }
                }
                _ => self.target_element(kid)?,
            };
            tree.kids.push(kid);
        }
        tree.kind = if object { 43 } else { 42 };
        Ok(tree)
    }

    /// The closing spread of a literal: record 3, then in objects record 4 before the argument, in arrays after it.
    fn target_rest(&mut self, mut spread: Tree, object: bool, comma: Option<usize>) -> Got<Tree> {
        let argument = spread.kids.remove(0);
        let mut inner = &argument;
        while inner.kind == 4 {
            inner = &inner.kids[0];
        }
        if !matches!((inner.kind, object), (1 | 16 | 17, _) | (5..=8, false)) {
            self.records.push((3, argument.first));
        }
        if object {
            self.records.extend(comma.map(|place| (4, place)));
        }
        let target = self.target(argument, true)?;
        if !object {
            self.records.extend(comma.map(|place| (4, place)));
        }
        Ok(Tree { kind: 44, kids: vec![target], ..spread })
    }
}
