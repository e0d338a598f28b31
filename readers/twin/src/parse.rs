//! Expressions, arrows, literals and bindings (13.2 to 13.16, 14.3.3, 15.3, 15.9), written straight into the lent rows.
use crate::arrow::{Tristate, three_way};
use crate::kind::{self, is_name};
use crate::operator::expression_precedence;
use crate::row::{self, *};
use crate::target::{self, Want};
use crate::{Answer, Cause, Counts, MAX_TOKENS, Refusal, refuse};

/// Where a reading starts in the grammar.
pub enum Entry {
    Expression,
    Binding,
}

type Done = Result<(), Cause>;

struct Reader<'a> {
    kinds: &'a [u8],
    flags: &'a [u8],
    rows: &'a mut [Row],
    records: &'a mut [u32],
    /// The place of the next token.
    at: usize,
    /// The rows and records so far.
    row_count: usize,
    record_count: usize,
    /// The places at which a head failed.
    notes: [u64; MAX_TOKENS / 64],
    abandoned: usize,
    /// Whether a ShorthandInit was ever written: else the last pass is not needed.
    has_init: bool,
}

/// The whole list, then end; then record 8 for each ShorthandInit that is left, in row order.
pub fn whole(entry: Entry, kinds: &[u8], flags: &[u8], rows: &mut [Row], records: &mut [u32]) -> Answer {
    let mut reader = Reader { kinds, flags, rows, records, at: 0, row_count: 0, record_count: 0, notes: [0; MAX_TOKENS / 64], abandoned: 0, has_init: false };
    match entry {
        Entry::Expression => reader.expression()?,
        Entry::Binding => reader.binding_element()?,
    }
    if reader.at != kinds.len() {
        return refuse(Refusal::Unexpected, reader.at);
    }
    if reader.has_init {
        reader.unconverted();
    }
    Ok(Counts { rows: reader.row_count, records: reader.record_count, abandoned: reader.abandoned })
}

impl Reader<'_> {
    /// The kind at a place; past the end it is 0.
    fn kind_at(&self, place: usize) -> u8 {
        self.kinds.get(place).copied().unwrap_or(0)
    }

    fn kind(&self) -> u8 {
        self.kind_at(self.at)
    }

    fn has_break(&self, place: usize) -> bool {
        self.flags.get(place) == Some(&1)
    }

    fn unexpected<T>(&self) -> Result<T, Cause> {
        refuse(Refusal::Unexpected, self.at)
    }

    /// Takes the token if it is of this kind, else 8.
    fn expect(&mut self, kind: u8) -> Done {
        if self.kind() != kind {
            return self.unexpected();
        }
        self.at += 1;
        Ok(())
    }

    fn put(&mut self, words: Row) {
        self.rows[self.row_count] = words;
        self.row_count += 1;
    }

    /// A row of one token without kids.
    fn leaf(&mut self, kind: u32) {
        let at = self.at as u32;
        self.at += 1;
        self.put([kind, at, at, at + 1, 0, 1]);
    }

    /// A row over all rows from `from` on, up to the next token.
    fn over(&mut self, kind: u32, mark: usize, first: usize, kids: u32, from: usize) {
        let size = self.row_count - from + 1;
        self.put([kind, mark as u32, first as u32, self.at as u32, kids, size as u32]);
    }

    fn say(&mut self, number: u32, place: usize) {
        let at = 2 * self.record_count;
        self.records[at] = number;
        self.records[at + 1] = place as u32;
        self.record_count += 1;
    }

    /// The kind of the row that was finished last.
    fn root(&self) -> u32 {
        self.rows[self.row_count - 1][row::KIND]
    }

    /// Record 8, in row order.
    fn unconverted(&mut self) {
        for at in 0..self.row_count {
            if self.rows[at][row::KIND] == SHORTHAND_INIT {
                self.say(8, self.rows[at][row::MARK] as usize);
            }
        }
    }

    /// Turns the last row into a target.
    fn convert(&mut self, want: Want) -> Done {
        let root = self.row_count - 1;
        let count = target::judge(self.rows, root, want)?;
        self.record_count += count;
        target::turn(self.rows, root, self.records, self.record_count);
        Ok(())
    }

    /// 13.16 Expression.
    fn expression(&mut self) -> Done {
        let (first, from) = (self.at, self.row_count);
        self.assignment()?;
        if self.kind() != kind::COMMA {
            return Ok(());
        }
        let mark = self.at;
        let mut kids = 1;
        while self.kind() == kind::COMMA {
            self.at += 1;
            self.assignment()?;
            kids += 1;
        }
        self.over(SEQUENCE, mark, first, kids, from);
        Ok(())
    }

    /// 13.15 AssignmentExpression: an arrow's head is read for good, tried or passed.
    fn assignment(&mut self) -> Done {
        if matches!(self.kind(), kind::L_PAREN | kind::ASYNC) {
            let place = self.at;
            match three_way(self.kinds, self.flags, place, false, false) {
                Tristate::True => return self.arrow(),
                Tristate::Maybe if self.notes[place / 64] >> (place % 64) & 1 == 0 => {
                    let (rows, records) = (self.row_count, self.record_count);
                    if let Ok(kids) = self.head() {
                        return self.body(place, kids, rows);
                    }
                    self.notes[place / 64] |= 1 << (place % 64);
                    self.abandoned += 1;
                    (self.at, self.row_count, self.record_count) = (place, rows, records);
                }
                _ => {}
            }
        }
        self.no_head()
    }

    /// The assignment level where no parenthesized head stands.
    fn no_head(&mut self) -> Done {
        let (first, from) = (self.at, self.row_count);
        if self.kind() == kind::ASYNC && self.kind_at(first + 2) == kind::ARROW && is_name(self.kind_at(first + 1)) && !self.has_break(first + 1) {
            self.at += 1;
            self.leaf(BINDING_NAME);
            return self.simple_arrow(ASYNC_ARROW, first, from);
        }
        self.binary(0)?;
        match self.kind() {
            kind::ARROW if self.root() == IDENTIFIER => {
                self.rows[from][row::KIND] = BINDING_NAME;
                self.simple_arrow(ARROW, first, from)
            }
            kind::QUESTION => self.conditional(first, from),
            operator if kind::is_assignment(operator) => self.assign(operator, first, from),
            _ => Ok(()),
        }
    }

    /// 13.15: the left side is converted before the right is read.
    fn assign(&mut self, operator: u8, first: usize, from: usize) -> Done {
        let (kind, want) = if operator == kind::EQ { (ASSIGN, Want::Any) } else { (COMPOUND_ASSIGN, Want::Simple) };
        self.convert(want)?;
        let mark = self.at;
        self.at += 1;
        self.assignment()?;
        self.over(kind, mark, first, 2, from);
        Ok(())
    }

    /// 13.14 ConditionalExpression, from its `?` on.
    fn conditional(&mut self, first: usize, from: usize) -> Done {
        let mark = self.at;
        self.at += 1;
        self.assignment()?;
        self.expect(kind::COLON)?;
        self.assignment()?;
        self.over(CONDITIONAL, mark, first, 3, from);
        Ok(())
    }

    /// 15.3 and 15.9: an arrow with a head in parentheses that must be one.
    fn arrow(&mut self) -> Done {
        let (first, from) = (self.at, self.row_count);
        let kids = self.head()?;
        self.body(first, kids, from)
    }

    /// A head up to and with its `=>`: the number of parameters.
    fn head(&mut self) -> Result<u32, Cause> {
        if self.kind() == kind::ASYNC {
            self.at += 1;
        }
        self.expect(kind::L_PAREN)?;
        let mut kids = 0;
        loop {
            match self.kind() {
                kind::R_PAREN => break,
                kind::DOT3 => {
                    self.rest(kind::R_PAREN)?;
                    kids += 1;
                    break;
                }
                _ => self.binding_element()?,
            }
            kids += 1;
            match self.kind() {
                kind::COMMA => self.at += 1,
                kind::R_PAREN => break,
                _ => return self.unexpected(),
            }
        }
        self.at += 1;
        self.arrow_token()?;
        Ok(kids)
    }

    /// The `=>`; a break before it is record 1.
    fn arrow_token(&mut self) -> Done {
        let mark = self.at;
        self.expect(kind::ARROW)?;
        if self.has_break(mark) {
            self.say(1, mark);
        }
        Ok(())
    }

    /// An arrow of one name, from its `=>` on.
    fn simple_arrow(&mut self, kind: u32, first: usize, from: usize) -> Done {
        self.arrow_token()?;
        self.body_of(kind, first, 1, from)
    }

    fn body(&mut self, first: usize, kids: u32, from: usize) -> Done {
        let kind = if self.kinds[first] == kind::ASYNC { ASYNC_ARROW } else { ARROW };
        self.body_of(kind, first, kids, from)
    }

    /// ConciseBody, after the `=>`: an AssignmentExpression that does not start with `{`.
    fn body_of(&mut self, kind: u32, first: usize, kids: u32, from: usize) -> Done {
        let mark = self.at - 1;
        if self.kind() == kind::L_CURLY {
            return self.unexpected();
        }
        self.assignment()?;
        self.over(kind, mark, first, kids + 1, from);
        Ok(())
    }

    /// 13.6 to 13.13: operators of a level above `floor`. Equal levels group left, `**` right.
    fn binary(&mut self, floor: u8) -> Done {
        let (first, from) = (self.at, self.row_count);
        self.unary()?;
        loop {
            let operator = self.kind();
            let level = expression_precedence(operator);
            if level <= floor {
                return Ok(());
            }
            let (mark, left) = (self.at, self.row_count - 1);
            self.at += 1;
            self.binary(if operator == kind::STAR2 { level - 1 } else { level })?;
            let right = self.row_count - 1;
            let logical = matches!(operator, kind::QUESTION2..=kind::AMP2);
            self.over(if logical { LOGICAL } else { BINARY }, mark, first, 2, from);
            if operator == kind::QUESTION2 && (self.is_or_and(left) || self.is_or_and(right)) {
                self.say(6, mark);
            }
            if operator == kind::STAR2 && self.rows[left][row::KIND] == UNARY {
                self.say(7, mark);
            }
        }
    }

    /// A bare `||` or `&&`.
    fn is_or_and(&self, at: usize) -> bool {
        self.rows[at][row::KIND] == LOGICAL && self.kinds[self.rows[at][row::MARK] as usize] != kind::QUESTION2
    }

    /// 13.5 UnaryExpression: the operators are skipped, the operand read, and their rows written from the innermost out.
    fn unary(&mut self) -> Done {
        let (first, from) = (self.at, self.row_count);
        while kind::is_unary(self.kind()) || kind::is_update(self.kind()) {
            self.at += 1;
        }
        let operand = self.at;
        self.postfix()?;
        for place in (first..operand).rev() {
            if kind::is_update(self.kinds[place]) {
                self.convert(Want::Simple)?;
                self.over(PREFIX_UPDATE, place, place, 1, from);
            } else {
                self.over(UNARY, place, place, 1, from);
            }
        }
        Ok(())
    }

    /// 13.4 UpdateExpression: a postfix operator on the line of the token before it.
    fn postfix(&mut self) -> Done {
        let (first, from) = (self.at, self.row_count);
        self.left_hand_side()?;
        if kind::is_update(self.kind()) && !self.has_break(self.at) {
            self.convert(Want::Simple)?;
            let mark = self.at;
            self.at += 1;
            self.over(POSTFIX_UPDATE, mark, first, 1, from);
        }
        Ok(())
    }

    /// 13.3: a primary expression and its members, indexes and calls.
    fn left_hand_side(&mut self) -> Done {
        let (first, from) = (self.at, self.row_count);
        self.primary()?;
        loop {
            match self.kind() {
                kind::DOT => {
                    self.at += 1;
                    if !kind::is_word(self.kind()) {
                        return self.unexpected();
                    }
                    self.at += 1;
                    self.over(MEMBER, self.at - 1, first, 1, from);
                }
                kind::L_BRACK => {
                    self.at += 1;
                    self.expression()?;
                    self.expect(kind::R_BRACK)?;
                    self.over(INDEX, first, first, 2, from);
                }
                kind::L_PAREN => {
                    let kids = self.arguments()?;
                    self.over(CALL, first, first, kids + 1, from);
                }
                _ => return Ok(()),
            }
        }
    }

    /// 13.3 Arguments, with spreads and one trailing comma: their number.
    fn arguments(&mut self) -> Result<u32, Cause> {
        self.at += 1;
        let mut kids = 0;
        loop {
            match self.kind() {
                kind::R_PAREN => break,
                kind::DOT3 => self.spread()?,
                _ => self.assignment()?,
            }
            kids += 1;
            match self.kind() {
                kind::COMMA => self.at += 1,
                kind::R_PAREN => break,
                _ => return self.unexpected(),
            }
        }
        self.at += 1;
        Ok(kids)
    }

    fn spread(&mut self) -> Done {
        let (first, from) = (self.at, self.row_count);
        self.at += 1;
        self.assignment()?;
        self.over(SPREAD, first, first, 1, from);
        Ok(())
    }

    /// 13.2 PrimaryExpression.
    fn primary(&mut self) -> Done {
        let (first, from) = (self.at, self.row_count);
        match self.kind() {
            kind::L_PAREN => {
                self.at += 1;
                self.expression()?;
                self.expect(kind::R_PAREN)?;
                self.over(PAREN, first, first, 1, from);
            }
            kind::L_BRACK => self.array()?,
            kind::L_CURLY => self.object()?,
            kind::THIS => self.leaf(row::THIS),
            name if is_name(name) => self.leaf(IDENTIFIER),
            literal if kind::is_literal(literal) => self.leaf(LITERAL),
            _ => return self.unexpected(),
        }
        Ok(())
    }

    /// 13.2.4 ArrayLiteral.
    fn array(&mut self) -> Done {
        let (first, from) = (self.at, self.row_count);
        self.at += 1;
        let mut kids = 0;
        let mut spread_comma = false;
        loop {
            let start = self.kind();
            match start {
                kind::R_BRACK => break,
                kind::COMMA => {
                    self.leaf(HOLE);
                    kids += 1;
                    spread_comma = false;
                    continue;
                }
                kind::DOT3 => self.spread()?,
                _ => self.assignment()?,
            }
            kids += 1;
            spread_comma = false;
            match self.kind() {
                kind::COMMA => self.at += 1,
                kind::R_BRACK => break,
                _ => return self.unexpected(),
            }
            spread_comma = start == kind::DOT3;
        }
        self.at += 1;
        self.over(if spread_comma { ARRAY_REST_COMMA } else { ARRAY }, first, first, kids, from);
        Ok(())
    }

    /// 13.2.5 ObjectLiteral.
    fn object(&mut self) -> Done {
        let (first, from) = (self.at, self.row_count);
        self.at += 1;
        let mut kids = 0;
        let mut spread_comma = false;
        loop {
            let start = self.kind();
            match start {
                kind::R_CURLY => break,
                kind::DOT3 => self.spread()?,
                _ => self.property()?,
            }
            kids += 1;
            spread_comma = false;
            match self.kind() {
                kind::COMMA => self.at += 1,
                kind::R_CURLY => break,
                _ => return self.unexpected(),
            }
            spread_comma = start == kind::DOT3;
        }
        self.at += 1;
        self.over(if spread_comma { OBJECT_REST_COMMA } else { OBJECT }, first, first, kids, from);
        Ok(())
    }

    /// A name as a property that no `:` follows.
    fn at_shorthand(&self) -> bool {
        is_name(self.kind()) && self.kind_at(self.at + 1) != kind::COLON
    }

    /// 13.2.5 PropertyDefinition: a shorthand, one with an initializer, or a key and a value.
    fn property(&mut self) -> Done {
        let (first, from) = (self.at, self.row_count);
        if self.at_shorthand() {
            self.has_init |= self.shorthand(IDENTIFIER, SHORTHAND, SHORTHAND_INIT)?;
            return Ok(());
        }
        self.key()?;
        self.expect(kind::COLON)?;
        self.assignment()?;
        self.over(PROPERTY, first, first, 2, from);
        Ok(())
    }

    /// A name alone, or with `=` and an initializer: whether it has one.
    fn shorthand(&mut self, name: u32, alone: u32, with_init: u32) -> Result<bool, Cause> {
        let (first, from) = (self.at, self.row_count);
        self.leaf(name);
        if self.kind() != kind::EQ {
            self.over(alone, first, first, 1, from);
            return Ok(false);
        }
        let mark = self.at;
        self.at += 1;
        self.assignment()?;
        self.over(with_init, mark, first, 2, from);
        Ok(true)
    }

    /// 13.2.5 PropertyName.
    fn key(&mut self) -> Done {
        let (first, from) = (self.at, self.row_count);
        if kind::is_plain_key(self.kind()) {
            self.leaf(KEY);
            return Ok(());
        }
        self.expect(kind::L_BRACK)?;
        self.assignment()?;
        self.expect(kind::R_BRACK)?;
        self.over(COMPUTED_KEY, first, first, 1, from);
        Ok(())
    }

    /// 14.3.3 BindingElement: a binding with an optional initializer.
    fn binding_element(&mut self) -> Done {
        let (first, from) = (self.at, self.row_count);
        self.binding()?;
        if self.kind() == kind::EQ {
            let mark = self.at;
            self.at += 1;
            self.assignment()?;
            self.over(BINDING_DEFAULT, mark, first, 2, from);
        }
        Ok(())
    }

    /// 14.3.3 BindingIdentifier or BindingPattern.
    fn binding(&mut self) -> Done {
        match self.kind() {
            kind::L_BRACK => self.binding_array(),
            kind::L_CURLY => self.binding_object(),
            name if is_name(name) => {
                self.leaf(BINDING_NAME);
                Ok(())
            }
            _ => self.unexpected(),
        }
    }

    /// 14.3.3 BindingRestElement, left at its closing token, else 12. An initializer is record 2.
    fn rest(&mut self, close: u8) -> Done {
        let (first, from) = (self.at, self.row_count);
        self.at += 1;
        self.binding_element()?;
        if self.root() == BINDING_DEFAULT {
            self.say(2, self.rows[self.row_count - 1][row::MARK] as usize);
        }
        self.over(BINDING_REST, first, first, 1, from);
        if self.kind() != close {
            return refuse(Refusal::RestLast, self.at);
        }
        Ok(())
    }

    /// 14.3.3 ArrayBindingPattern.
    fn binding_array(&mut self) -> Done {
        let (first, from) = (self.at, self.row_count);
        self.at += 1;
        let mut kids = 0;
        loop {
            match self.kind() {
                kind::R_BRACK => break,
                kind::COMMA => {
                    self.leaf(HOLE);
                    kids += 1;
                    continue;
                }
                kind::DOT3 => self.rest(kind::R_BRACK)?,
                _ => self.binding_element()?,
            }
            kids += 1;
            match self.kind() {
                kind::COMMA => self.at += 1,
                kind::R_BRACK => break,
                _ => return self.unexpected(),
            }
        }
        self.at += 1;
        self.over(BINDING_ARRAY, first, first, kids, from);
        Ok(())
    }

    /// 14.3.3 ObjectBindingPattern. Its rest must be a bare name, else 11 at the rest's argument.
    fn binding_object(&mut self) -> Done {
        let (first, from) = (self.at, self.row_count);
        self.at += 1;
        let mut kids = 0;
        loop {
            match self.kind() {
                kind::R_CURLY => break,
                kind::DOT3 => {
                    let argument = self.at + 1;
                    self.rest(kind::R_CURLY)?;
                    if self.rows[self.row_count - 2][row::KIND] != BINDING_NAME {
                        return refuse(Refusal::RestName, argument);
                    }
                }
                _ => self.binding_property()?,
            }
            kids += 1;
            match self.kind() {
                kind::COMMA => self.at += 1,
                kind::R_CURLY => break,
                _ => return self.unexpected(),
            }
        }
        self.at += 1;
        self.over(BINDING_OBJECT, first, first, kids, from);
        Ok(())
    }

    /// 14.3.3 BindingProperty.
    fn binding_property(&mut self) -> Done {
        let (first, from) = (self.at, self.row_count);
        if self.at_shorthand() {
            self.shorthand(BINDING_NAME, BINDING_SHORTHAND, BINDING_SHORTHAND_INIT)?;
            return Ok(());
        }
        self.key()?;
        self.expect(kind::COLON)?;
        self.binding_element()?;
        self.over(PROPERTY, first, first, 2, from);
        Ok(())
    }
}
