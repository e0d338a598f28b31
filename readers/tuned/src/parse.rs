//! Expressions, arrows, literals and bindings (13.2 to 13.16, 14.3.3, 15.3, 15.9), written straight into the lent rows. Each function is told the
//! place at which it starts and gives the place after what it has read.
//!
//! What nests to the right (`=>`, `=`, the binary levels, `? :`) is read by one loop: an unfinished parent waits as a row at the far end of the
//! lent memory. Each waiting row is paid by a token already passed, so the two ends do not meet. Brackets, heads and bindings recurse.
use crate::arrow::three_way;
use crate::target::{self, Want};
use twin::arrow::Tristate;
use twin::kind::{self, is_name};
use twin::operator;
use twin::row::{self, *};
use twin::{Answer, Cause, Counts, MAX_TOKENS, Refusal};

/// Where a reading starts in the grammar.
pub enum Entry {
    Expression,
    Binding,
}

/// The place after what was read.
type Place = Result<u32, Cause>;

struct Reader<'a> {
    kinds: &'a [u8],
    flags: &'a [u8],
    /// The words of the rows: those that are finished from the front on, those that wait at the far end.
    rows: &'a mut [u32],
    records: &'a mut [u32],
    /// The rows and records so far.
    row_count: u32,
    record_count: u32,
    /// The first row that waits: kind, mark and first as it will be finished, its left operand or 0, its level or kids, the first row below it.
    waiting: u32,
    /// The places at which a head failed.
    notes: [u64; MAX_TOKENS / 64],
    abandoned: u32,
    /// Whether a ShorthandInit was ever written: else the last pass is not needed.
    has_init: bool,
}

/// The kind of a waiting Conditional whose `:` is not read yet.
const CHOICE: u32 = 0;

/// The row of a primary expression of one token, and 0 for any other. Async is left out: it may start an arrow.
const SINGLE: [u8; 256] = singles();

const fn singles() -> [u8; 256] {
    let mut table = [0; 256];
    let mut k = 0;
    while k < 256 {
        table[k] = match k as u8 {
            kind::ASYNC => 0,
            name if is_name(name) => IDENTIFIER as u8,
            kind::THIS => row::THIS as u8,
            literal if kind::is_literal(literal) => LITERAL as u8,
            _ => 0,
        };
        k += 1;
    }
    table
}

/// The levels of the binary operators, doubled, so that there is one just below `**` for its right side; 0 for any other token.
const LEVEL: [u8; 256] = levels();
const BELOW_POWER: u32 = 23;
const COALESCE: u32 = 2;

const fn levels() -> [u8; 256] {
    let mut table = [0; 256];
    let mut k = 0;
    while k < 256 {
        table[k] = 2 * operator::LEVELS[k];
        k += 1;
    }
    table[kind::AS as usize] = 0;
    table[kind::SATISFIES as usize] = 0;
    table
}

/// What goes on from an operand of one token: `.` `[` `(` `++` `--`
fn goes_on(kind: u8) -> bool {
    matches!(kind, kind::DOT | kind::L_BRACK | kind::L_PAREN | kind::PLUS2 | kind::MINUS2)
}

/// What nothing goes on to: `,` `:` `)` `]` `}`
fn closes(kind: u8) -> bool {
    matches!(kind, kind::COMMA | kind::COLON | kind::R_PAREN | kind::R_BRACK | kind::R_CURLY)
}

#[cold]
fn unexpected<T>(place: u32) -> Result<T, Cause> {
    Err(Cause::new(Refusal::Unexpected, place))
}

/// The whole list, then end; then record 8 for each ShorthandInit that is left, in row order.
pub fn whole(entry: Entry, kinds: &[u8], flags: &[u8], rows: &mut [u32], records: &mut [u32]) -> Answer {
    let mut reader = Reader {
        kinds,
        flags,
        rows,
        records,
        row_count: 0,
        record_count: 0,
        waiting: kinds.len() as u32,
        notes: [0; MAX_TOKENS / 64],
        abandoned: 0,
        has_init: false,
    };
    let end = match entry {
        Entry::Expression => reader.expression(0)?,
        Entry::Binding => reader.binding_element(0)?,
    };
    if end as usize != kinds.len() {
        return unexpected(end);
    }
    if reader.has_init {
        reader.unconverted();
    }
    Ok(Counts { rows: reader.row_count as usize, records: reader.record_count as usize, abandoned: reader.abandoned as usize })
}

impl Reader<'_> {
    /// The kind at a place; past the end it is 0.
    fn kind(&self, place: u32) -> u8 {
        self.kinds.get(place as usize).copied().unwrap_or(0)
    }

    fn has_break(&self, place: u32) -> bool {
        self.flags.get(place as usize) == Some(&1)
    }

    /// Past a token of this kind, else 8.
    fn expect(&self, at: u32, kind: u8) -> Place {
        if self.kind(at) != kind {
            return unexpected(at);
        }
        Ok(at + 1)
    }

    /// A row's words, finished or waiting.
    fn row(&mut self, at: u32) -> &mut Row {
        let word = WORDS * at as usize;
        (&mut self.rows[word..word + WORDS]).try_into().expect("a row's words")
    }

    fn put(&mut self, words: Row) {
        *self.row(self.row_count) = words;
        self.row_count += 1;
    }

    /// A row of one token without kids.
    fn leaf(&mut self, at: u32, kind: u32) -> u32 {
        self.put([kind, at, at, at + 1, 0, 1]);
        at + 1
    }

    /// A row over all rows from `from` on.
    fn over(&mut self, kind: u32, mark: u32, first: u32, end: u32, kids: u32, from: u32) -> u32 {
        self.put([kind, mark, first, end, kids, self.row_count - from + 1]);
        end
    }

    fn say(&mut self, number: u32, place: u32) {
        let word = 2 * self.record_count as usize;
        self.records[word..word + 2].copy_from_slice(&[number, place]);
        self.record_count += 1;
    }

    /// The kind of the row that was finished last.
    fn root(&mut self) -> u32 {
        self.row(self.row_count - 1)[KIND]
    }

    /// Record 8, in row order.
    fn unconverted(&mut self) {
        for at in 0..self.row_count {
            let [kind, mark, ..] = *self.row(at);
            if kind == SHORTHAND_INIT {
                self.say(8, mark);
            }
        }
    }

    /// Turns the last row into a target: a name, Member or Index at once.
    fn convert(&mut self, want: Want) -> Result<(), Cause> {
        let root = self.row_count - 1;
        match target::simple(self.row(root)[KIND]) {
            0 => {
                self.record_count += target::judge(self.rows, root as usize, want)? as u32;
                target::turn(self.rows, root as usize, self.records, self.record_count as usize);
            }
            turned => self.row(root)[KIND] = turned,
        }
        Ok(())
    }

    /// 13.16 Expression.
    fn expression(&mut self, first: u32) -> Place {
        let from = self.row_count;
        let mark = self.assignment(first)?;
        if self.kind(mark) != kind::COMMA {
            return Ok(mark);
        }
        let mut at = mark;
        let mut kids = 1;
        while self.kind(at) == kind::COMMA {
            at = self.assignment(at + 1)?;
            kids += 1;
        }
        Ok(self.over(SEQUENCE, mark, first, at, kids, from))
    }

    /// 13.15 AssignmentExpression: one token that nothing goes on from at once.
    #[inline(always)]
    fn assignment(&mut self, at: u32) -> Place {
        let single = SINGLE[self.kind(at) as usize] as u32;
        if single != 0 && closes(self.kind(at + 1)) {
            return Ok(self.leaf(at, single));
        }
        self.chain(at)
    }

    /// 13.15 AssignmentExpression: parts and operands up to what none goes on to. All that waits above `base` is finished then.
    fn chain(&mut self, mut at: u32) -> Place {
        let base = self.waiting;
        let mut is_part = true;
        loop {
            let (first, from) = (at, self.row_count);
            let kind = self.kind(at);
            let mut operator = self.kind(at + 1);
            let single = SINGLE[kind as usize] as u32;
            if single != 0 && !goes_on(operator) {
                at = self.leaf(at, single);
            } else {
                if is_part && matches!(kind, kind::L_PAREN | kind::ASYNC) {
                    if let Some(body) = self.arrow_head(at)? {
                        at = body;
                        continue;
                    }
                }
                at = self.unary(at)?;
                operator = self.kind(at);
            }
            let level = LEVEL[operator as usize] as u32;
            let (first, from) = self.finish_operators(base, at, level, first, from);
            is_part = level == 0;
            at = if level > 0 {
                self.wait_for_operand(at, operator, level, first, from)
            } else if let Some(part) = self.wait_for_part(at, operator, first, from)? {
                part
            } else if let Some(part) = self.finish_parts(base, at)? {
                part
            } else {
                return Ok(at);
            };
        }
    }

    /// A row waits at the far end: its mark, the token at the place, is passed.
    fn wait(&mut self, at: u32, kind: u32, first: u32, left: u32, level_or_kids: u32, from: u32) -> u32 {
        self.waiting -= 1;
        *self.row(self.waiting) = [kind, at, first, left, level_or_kids, from];
        at + 1
    }

    /// 13.6 to 13.13: an operator and its left operand wait for the right one. Equal levels group left, `**` right.
    fn wait_for_operand(&mut self, at: u32, operator: u8, level: u32, first: u32, from: u32) -> u32 {
        let kind = if matches!(operator, kind::QUESTION2..=kind::AMP2) { LOGICAL } else { BINARY };
        let level = if operator == kind::STAR2 { BELOW_POWER } else { level };
        self.wait(at, kind, first, self.row_count - 1, level, from)
    }

    /// Finishes the operators that wait above `base` and do not reach over one of this level. The first token and row of what stands there then.
    #[inline(always)]
    fn finish_operators(&mut self, base: u32, at: u32, level: u32, mut first: u32, mut from: u32) -> (u32, u32) {
        let (mut made, mut waiting) = (self.row_count, self.waiting);
        while waiting < base {
            let [kind, mark, start, left, floor, below] = *self.row(waiting);
            if !matches!(kind, BINARY | LOGICAL) || floor < level {
                break;
            }
            (first, from) = (start, below);
            *self.row(made) = [kind, mark, first, at, 2, made - from + 1];
            if floor == COALESCE && (self.is_or_and(left) || self.is_or_and(made - 1)) {
                self.say(6, mark);
            }
            if floor == BELOW_POWER && self.row(left)[KIND] == UNARY {
                self.say(7, mark);
            }
            (made, waiting) = (made + 1, waiting + 1);
        }
        (self.row_count, self.waiting) = (made, waiting);
        (first, from)
    }

    /// A bare `||` or `&&`.
    fn is_or_and(&mut self, at: u32) -> bool {
        let [kind, mark, ..] = *self.row(at);
        kind == LOGICAL && self.kind(mark) != kind::QUESTION2
    }

    /// 13.14, 13.15, 15.3: a token after the binary level that makes a parent which waits for a part. A left side is converted first.
    fn wait_for_part(&mut self, at: u32, operator: u8, first: u32, from: u32) -> Result<Option<u32>, Cause> {
        Ok(Some(match operator {
            kind::ARROW if self.root() == IDENTIFIER => {
                self.row(from)[KIND] = BINDING_NAME;
                self.arrow(at, ARROW, first, 1, from)?
            }
            kind::QUESTION => self.wait(at, CHOICE, first, 0, 3, from),
            kind::EQ => {
                self.convert(Want::Any)?;
                self.wait(at, ASSIGN, first, 0, 2, from)
            }
            compound if kind::is_assignment(compound) => {
                self.convert(Want::Simple)?;
                self.wait(at, COMPOUND_ASSIGN, first, 0, 2, from)
            }
            _ => return Ok(None),
        }))
    }

    /// Finishes what waits above `base` for the part that ends here, up to a Conditional that goes on after its `:`.
    fn finish_parts(&mut self, base: u32, at: u32) -> Result<Option<u32>, Cause> {
        while self.waiting < base {
            let [kind, mark, first, _, kids, from] = *self.row(self.waiting);
            if kind == CHOICE {
                self.row(self.waiting)[KIND] = CONDITIONAL;
                return self.expect(at, kind::COLON).map(Some);
            }
            self.waiting += 1;
            self.over(kind, mark, first, at, kids, from);
        }
        Ok(None)
    }

    /// 15.3 and 15.9: where an arrow's head stands, read for good, tried or passed, its arrow waits for the body.
    fn arrow_head(&mut self, first: u32) -> Result<Option<u32>, Cause> {
        let (from, records, waiting) = (self.row_count, self.record_count, self.waiting);
        let answer = three_way(self.kinds, self.flags, first as usize);
        let (word, bit) = (first as usize / 64, 1 << (first % 64));
        if answer == Tristate::True || answer == Tristate::Maybe && self.notes[word] & bit == 0 {
            let kind = if self.kind(first) == kind::ASYNC { ASYNC_ARROW } else { ARROW };
            match self.head(first) {
                Ok((at, kids)) => return self.arrow(at, kind, first, kids, from).map(Some),
                Err(cause) if answer == Tristate::True => return Err(cause),
                Err(_) => {}
            }
            self.notes[word] |= bit;
            self.abandoned += 1;
            (self.row_count, self.record_count, self.waiting) = (from, records, waiting);
        }
        if self.kind(first) == kind::ASYNC && self.kind(first + 2) == kind::ARROW && is_name(self.kind(first + 1)) && !self.has_break(first + 1) {
            let at = self.leaf(first + 1, BINDING_NAME);
            return self.arrow(at, ASYNC_ARROW, first, 1, from).map(Some);
        }
        Ok(None)
    }

    /// An arrow waits for its body, from its `=>` on, which must not start with `{`. A break before the `=>` is record 1.
    fn arrow(&mut self, at: u32, kind: u32, first: u32, parameters: u32, from: u32) -> Place {
        if self.has_break(at) {
            self.say(1, at);
        }
        if self.kind(at + 1) == kind::L_CURLY {
            return unexpected(at + 1);
        }
        Ok(self.wait(at, kind, first, 0, parameters + 1, from))
    }

    /// A head up to its `=>`: where that stands, and the number of parameters.
    fn head(&mut self, first: u32) -> Result<(u32, u32), Cause> {
        let open = if self.kind(first) == kind::ASYNC { first + 1 } else { first };
        let mut at = self.expect(open, kind::L_PAREN)?;
        let mut kids = 0;
        loop {
            match self.kind(at) {
                kind::R_PAREN => break,
                kind::DOT3 => {
                    at = self.rest(at, kind::R_PAREN)?;
                    kids += 1;
                    break;
                }
                _ => at = self.binding_element(at)?,
            }
            kids += 1;
            match self.kind(at) {
                kind::COMMA => at += 1,
                kind::R_PAREN => break,
                _ => return unexpected(at),
            }
        }
        if self.kind(at + 1) != kind::ARROW {
            return unexpected(at + 1);
        }
        Ok((at + 1, kids))
    }

    /// 13.5 UnaryExpression: the operators are skipped, the operand read, and their rows written from the innermost out.
    fn unary(&mut self, first: u32) -> Place {
        let from = self.row_count;
        let mut operand = first;
        while kind::is_unary(self.kind(operand)) || kind::is_update(self.kind(operand)) {
            operand += 1;
        }
        let at = self.postfix(operand)?;
        for place in (first..operand).rev() {
            if kind::is_update(self.kind(place)) {
                self.convert(Want::Simple)?;
                self.over(PREFIX_UPDATE, place, place, at, 1, from);
            } else {
                self.over(UNARY, place, place, at, 1, from);
            }
        }
        Ok(at)
    }

    /// 13.4 UpdateExpression: a postfix operator on the line of the token before it.
    fn postfix(&mut self, first: u32) -> Place {
        let from = self.row_count;
        let mark = self.left_hand_side(first)?;
        if !kind::is_update(self.kind(mark)) || self.has_break(mark) {
            return Ok(mark);
        }
        self.convert(Want::Simple)?;
        Ok(self.over(POSTFIX_UPDATE, mark, first, mark + 1, 1, from))
    }

    /// 13.3: a primary expression and its members, indexes and calls.
    fn left_hand_side(&mut self, first: u32) -> Place {
        let from = self.row_count;
        let mut at = self.primary(first)?;
        loop {
            at = match self.kind(at) {
                kind::DOT if kind::is_word(self.kind(at + 1)) => self.over(MEMBER, at + 1, first, at + 2, 1, from),
                kind::DOT => return unexpected(at + 1),
                kind::L_BRACK => {
                    let close = self.expression(at + 1)?;
                    let end = self.expect(close, kind::R_BRACK)?;
                    self.over(INDEX, first, first, end, 2, from)
                }
                kind::L_PAREN => self.call(at, first, from)?,
                _ => return Ok(at),
            };
        }
    }

    /// 13.3: a Call, from its `(` on, with spreads and one trailing comma.
    fn call(&mut self, open: u32, first: u32, from: u32) -> Place {
        let mut at = open + 1;
        let mut kids = 1;
        loop {
            at = match self.kind(at) {
                kind::R_PAREN => break,
                kind::DOT3 => self.spread(at)?,
                _ => self.assignment(at)?,
            };
            kids += 1;
            match self.kind(at) {
                kind::COMMA => at += 1,
                kind::R_PAREN => break,
                _ => return unexpected(at),
            }
        }
        Ok(self.over(CALL, first, first, at + 1, kids, from))
    }

    fn spread(&mut self, first: u32) -> Place {
        let from = self.row_count;
        let at = self.assignment(first + 1)?;
        Ok(self.over(SPREAD, first, first, at, 1, from))
    }

    /// 13.2 PrimaryExpression.
    fn primary(&mut self, first: u32) -> Place {
        let from = self.row_count;
        match self.kind(first) {
            kind::L_PAREN => {
                let close = self.expression(first + 1)?;
                let end = self.expect(close, kind::R_PAREN)?;
                Ok(self.over(PAREN, first, first, end, 1, from))
            }
            kind::L_BRACK => self.array(first),
            kind::L_CURLY => self.object(first),
            kind::ASYNC => Ok(self.leaf(first, IDENTIFIER)),
            other => match SINGLE[other as usize] {
                0 => unexpected(first),
                single => Ok(self.leaf(first, single as u32)),
            },
        }
    }

    /// 13.2.4 ArrayLiteral.
    fn array(&mut self, first: u32) -> Place {
        let from = self.row_count;
        let mut at = first + 1;
        let mut kids = 0;
        let mut kind = ARRAY;
        loop {
            let start = self.kind(at);
            at = match start {
                kind::R_BRACK => break,
                kind::COMMA => {
                    at = self.leaf(at, HOLE);
                    kids += 1;
                    kind = ARRAY;
                    continue;
                }
                kind::DOT3 => self.spread(at)?,
                _ => self.assignment(at)?,
            };
            kids += 1;
            kind = ARRAY;
            match self.kind(at) {
                kind::COMMA => at += 1,
                kind::R_BRACK => break,
                _ => return unexpected(at),
            }
            kind = if start == kind::DOT3 { ARRAY_REST_COMMA } else { ARRAY };
        }
        Ok(self.over(kind, first, first, at + 1, kids, from))
    }

    /// 13.2.5 ObjectLiteral.
    fn object(&mut self, first: u32) -> Place {
        let from = self.row_count;
        let mut at = first + 1;
        let mut kids = 0;
        let mut kind = OBJECT;
        loop {
            let start = self.kind(at);
            at = match start {
                kind::R_CURLY => break,
                kind::DOT3 => self.spread(at)?,
                _ => self.property(at)?,
            };
            kids += 1;
            kind = OBJECT;
            match self.kind(at) {
                kind::COMMA => at += 1,
                kind::R_CURLY => break,
                _ => return unexpected(at),
            }
            kind = if start == kind::DOT3 { OBJECT_REST_COMMA } else { OBJECT };
        }
        Ok(self.over(kind, first, first, at + 1, kids, from))
    }

    /// A name as a property that no `:` follows.
    fn is_shorthand(&self, at: u32) -> bool {
        is_name(self.kind(at)) && self.kind(at + 1) != kind::COLON
    }

    /// 13.2.5 PropertyDefinition: a shorthand, one with an initializer, or a key and a value.
    fn property(&mut self, first: u32) -> Place {
        let from = self.row_count;
        if self.is_shorthand(first) {
            self.has_init |= self.kind(first + 1) == kind::EQ;
            return self.shorthand(first, IDENTIFIER, SHORTHAND, SHORTHAND_INIT);
        }
        let colon = self.key(first)?;
        let value = self.expect(colon, kind::COLON)?;
        let at = self.assignment(value)?;
        Ok(self.over(PROPERTY, first, first, at, 2, from))
    }

    /// A name alone, or with `=` and an initializer.
    fn shorthand(&mut self, first: u32, name: u32, alone: u32, with_init: u32) -> Place {
        let from = self.row_count;
        let mark = self.leaf(first, name);
        if self.kind(mark) != kind::EQ {
            return Ok(self.over(alone, first, first, mark, 1, from));
        }
        let at = self.assignment(mark + 1)?;
        Ok(self.over(with_init, mark, first, at, 2, from))
    }

    /// 13.2.5 PropertyName.
    fn key(&mut self, first: u32) -> Place {
        let from = self.row_count;
        if kind::is_plain_key(self.kind(first)) {
            return Ok(self.leaf(first, KEY));
        }
        let inner = self.expect(first, kind::L_BRACK)?;
        let close = self.assignment(inner)?;
        let end = self.expect(close, kind::R_BRACK)?;
        Ok(self.over(COMPUTED_KEY, first, first, end, 1, from))
    }

    /// 14.3.3 BindingElement: a binding with an optional initializer.
    fn binding_element(&mut self, first: u32) -> Place {
        let from = self.row_count;
        let mark = self.binding(first)?;
        if self.kind(mark) != kind::EQ {
            return Ok(mark);
        }
        let at = self.assignment(mark + 1)?;
        Ok(self.over(BINDING_DEFAULT, mark, first, at, 2, from))
    }

    /// 14.3.3 BindingIdentifier or BindingPattern.
    fn binding(&mut self, first: u32) -> Place {
        match self.kind(first) {
            kind::L_BRACK => self.binding_array(first),
            kind::L_CURLY => self.binding_object(first),
            name if is_name(name) => Ok(self.leaf(first, BINDING_NAME)),
            _ => unexpected(first),
        }
    }

    /// 14.3.3 BindingRestElement, up to its closing token, else 12. An initializer is record 2.
    fn rest(&mut self, first: u32, close: u8) -> Place {
        let from = self.row_count;
        let at = self.binding_element(first + 1)?;
        let [kind, mark, ..] = *self.row(self.row_count - 1);
        if kind == BINDING_DEFAULT {
            self.say(2, mark);
        }
        self.over(BINDING_REST, first, first, at, 1, from);
        if self.kind(at) != close {
            return Err(Cause::new(Refusal::RestLast, at));
        }
        Ok(at)
    }

    /// 14.3.3 ArrayBindingPattern.
    fn binding_array(&mut self, first: u32) -> Place {
        let from = self.row_count;
        let mut at = first + 1;
        let mut kids = 0;
        loop {
            at = match self.kind(at) {
                kind::R_BRACK => break,
                kind::COMMA => {
                    at = self.leaf(at, HOLE);
                    kids += 1;
                    continue;
                }
                kind::DOT3 => self.rest(at, kind::R_BRACK)?,
                _ => self.binding_element(at)?,
            };
            kids += 1;
            match self.kind(at) {
                kind::COMMA => at += 1,
                kind::R_BRACK => break,
                _ => return unexpected(at),
            }
        }
        Ok(self.over(BINDING_ARRAY, first, first, at + 1, kids, from))
    }

    /// 14.3.3 ObjectBindingPattern. Its rest must be a bare name, else 11 at the rest's argument.
    fn binding_object(&mut self, first: u32) -> Place {
        let from = self.row_count;
        let mut at = first + 1;
        let mut kids = 0;
        loop {
            at = match self.kind(at) {
                kind::R_CURLY => break,
                kind::DOT3 => {
                    let end = self.rest(at, kind::R_CURLY)?;
                    if self.row(self.row_count - 2)[KIND] != BINDING_NAME {
                        return Err(Cause::new(Refusal::RestName, at + 1));
                    }
                    end
                }
                _ => self.binding_property(at)?,
            };
            kids += 1;
            match self.kind(at) {
                kind::COMMA => at += 1,
                kind::R_CURLY => break,
                _ => return unexpected(at),
            }
        }
        Ok(self.over(BINDING_OBJECT, first, first, at + 1, kids, from))
    }

    /// 14.3.3 BindingProperty.
    fn binding_property(&mut self, first: u32) -> Place {
        let from = self.row_count;
        if self.is_shorthand(first) {
            return self.shorthand(first, BINDING_NAME, BINDING_SHORTHAND, BINDING_SHORTHAND_INIT);
        }
        let colon = self.key(first)?;
        let value = self.expect(colon, kind::COLON)?;
        let at = self.binding_element(value)?;
        Ok(self.over(PROPERTY, first, first, at, 2, from))
    }
}
