//! Lists made by the grammar of docs/RULES.md, clean unless faults are asked for.
use crate::{List, Random};

const OPEN: usize = 60;

/// A list that is one Expression of about `size` tokens, with up to so many faults put in.
pub fn expression(random: &mut Random, size: usize, faults: usize) -> List {
    let mut maker = Maker { random, list: List::default(), faults, depth: 0 };
    maker.sequence(size);
    maker.list
}

/// A list that is one binding with an optional initializer.
pub fn binding(random: &mut Random, size: usize, faults: usize) -> List {
    let mut maker = Maker { random, list: List::default(), faults, depth: 0 };
    maker.element(size, Side::Binding);
    maker.list
}

/// What sort of target or binding names are written.
#[derive(Clone, Copy, PartialEq, Eq)]
enum Side {
    Target,
    Binding,
}

struct Maker<'a> {
    random: &'a mut Random,
    list: List,
    faults: usize,
    depth: usize,
}

impl Maker<'_> {
    /// A token; a break before it now and then, where none counts.
    fn put(&mut self, kind: u8) {
        let counts = self.list.kinds.last() == Some(&2) || matches!(kind, 29 | 36 | 37);
        let flag = (if counts { self.fault(12) } else { self.random.once_in(25) }) as u8;
        self.list.push(kind, flag);
    }

    fn put_all(&mut self, kinds: &[u8]) {
        kinds.iter().for_each(|&kind| self.put(kind));
    }

    /// Whether to put in a fault here.
    fn fault(&mut self, rarely: usize) -> bool {
        let now = self.faults > 0 && self.random.once_in(rarely);
        self.faults -= now as usize;
        now
    }

    /// A size cut into a random number of parts.
    fn parts(&mut self, size: usize) -> Vec<usize> {
        let most = if self.random.once_in(4) { size / 2 } else { 4 };
        let count = 1 + self.random.below(most.max(1));
        let mut parts = vec![size / count; count];
        let (from, to) = (self.random.below(count), self.random.below(count));
        let moved = self.random.below(parts[from] + 1);
        parts[from] -= moved;
        parts[to] += moved;
        parts
    }

    fn name(&mut self) {
        let kind = if self.random.once_in(8) { 2 + self.random.below(4) as u8 } else { 1 };
        self.put(kind);
    }

    fn sequence(&mut self, size: usize) {
        if size < 4 || !self.random.once_in(6) {
            return self.assignment(size);
        }
        for (i, part) in self.parts(size).into_iter().enumerate() {
            if i > 0 {
                self.put(24);
            }
            self.assignment(part);
        }
    }

    fn assignment(&mut self, size: usize) {
        match self.random.below(10) {
            _ if size < 3 => self.operation(size),
            0 | 1 => self.arrow(size),
            2 => self.conditional(size),
            3..=5 => self.assign(size),
            _ => self.operation(size),
        }
    }

    fn conditional(&mut self, size: usize) {
        let share = size / 3;
        self.operation(share);
        self.put(26);
        self.assignment(share);
        self.put(25);
        self.assignment(size - 2 * share);
    }

    fn assign(&mut self, size: usize) {
        let left = self.random.below(size / 2 + 1);
        let compound = self.random.once_in(3);
        if compound && !self.fault(6) {
            self.simple(left);
        } else {
            self.target(left, Side::Target);
        }
        let operator = if compound { 64 + self.random.below(15) as u8 } else { 63 };
        self.put(operator);
        self.assignment(size - left);
    }

    fn arrow(&mut self, size: usize) {
        let is_async = self.random.once_in(4);
        if is_async {
            self.put(2);
        }
        let head = self.random.below(size / 2 + 1);
        if self.random.once_in(3) {
            self.name();
        } else {
            self.parameters(head);
        }
        if !self.fault(20) {
            self.put(29);
        }
        let at = self.list.len();
        self.assignment(size - head);
        if self.list.kinds.get(at) == Some(&22) && !self.fault(10) {
            self.list.kinds.insert(at, 58);
            self.list.flags.insert(at, 0);
        }
    }

    fn parameters(&mut self, size: usize) {
        self.put(18);
        self.depth += 1;
        if size > 0 && self.depth < OPEN {
            let parts = self.parts(size);
            let count = parts.len();
            for (i, part) in parts.into_iter().enumerate() {
                if i + 1 == count && self.random.once_in(5) {
                    self.rest(part, Side::Binding, false);
                } else {
                    self.element(part, Side::Binding);
                    if i + 1 < count || self.random.once_in(6) {
                        self.put(24);
                    }
                }
            }
        }
        self.depth -= 1;
        self.put(19);
    }

    /// Operands with operators between; `??` never beside `||` and `&&`, no prefix operator at the left of `**`.
    fn operation(&mut self, size: usize) {
        let coalesce = self.random.once_in(2);
        let parts = if size > 2 && self.random.once_in(2) { self.parts(size) } else { vec![size] };
        for (i, part) in parts.into_iter().enumerate() {
            if i > 0 {
                let power = self.random.once_in(5);
                let fault = self.fault(8);
                let mut operator = 38 + self.random.below(24) as u8;
                if operator <= 40 && !fault {
                    operator = if coalesce { 38 } else { 39 + self.random.below(2) as u8 };
                }
                self.put(if power { 62 } else { operator });
                if power && !fault {
                    self.update(part);
                    continue;
                }
            }
            if self.random.once_in(4) && !self.fault(8) {
                self.unary(part);
                let minus = 57 + self.random.below(2) as u8;
                self.put(minus);
                self.update(1);
            } else {
                self.update(part);
            }
        }
    }

    fn unary(&mut self, size: usize) {
        let count = if self.random.once_in(10) { self.random.below(size + 1) } else { 1 };
        for _ in 0..count {
            let operator = self.random.pick(&[30, 31, 32, 33, 34, 57, 58]);
            self.put(operator);
        }
        self.update(size.saturating_sub(count));
    }

    fn update(&mut self, size: usize) {
        let operator = 36 + self.random.below(2) as u8;
        match self.random.below(16) {
            0 => {
                self.put(operator);
                self.simple(size.saturating_sub(1));
            }
            1 => {
                self.simple(size.saturating_sub(1));
                self.put(operator);
            }
            _ => self.left_hand_side(size),
        }
    }

    fn left_hand_side(&mut self, size: usize) {
        if size < 3 || self.depth >= OPEN || !self.random.once_in(2) {
            return self.primary(size);
        }
        let first = self.random.below(size);
        if self.random.once_in(16) {
            self.put(2);
            self.call(first);
        } else {
            self.primary(first);
        }
        for part in self.parts(size - first) {
            match self.random.below(3) {
                0 => self.member(),
                1 => self.index(part),
                _ => self.call(part),
            }
        }
    }

    fn member(&mut self) {
        self.put(27);
        let word = self.random.pick(&[1, 1, 1, 2, 3, 5, 6, 7, 8, 14, 15, 16, 17, 32, 35, 52, 53]);
        self.put(word);
    }

    fn index(&mut self, size: usize) {
        self.put(20);
        self.depth += 1;
        self.sequence(size.saturating_sub(2));
        self.depth -= 1;
        self.put(21);
    }

    fn call(&mut self, size: usize) {
        self.put(18);
        self.depth += 1;
        if size > 2 && self.depth < OPEN {
            self.items(size - 2, 24, |maker, part| {
                if maker.random.once_in(6) {
                    maker.put(28);
                }
                maker.assignment(part);
            });
        }
        self.depth -= 1;
        self.put(19);
    }

    /// Parts with a token between, and now and then one after the last.
    fn items(&mut self, size: usize, between: u8, part: fn(&mut Self, usize)) {
        let parts = self.parts(size);
        let count = parts.len();
        for (i, size) in parts.into_iter().enumerate() {
            part(self, size.saturating_sub(1));
            if i + 1 < count || self.random.once_in(8) {
                self.put(between);
            }
        }
    }

    fn primary(&mut self, size: usize) {
        match self.random.below(5) {
            _ if size < 3 || self.depth >= OPEN => self.atom(),
            0 | 1 => {
                self.put(18);
                self.depth += 1;
                self.sequence(size - 2);
                self.depth -= 1;
                self.put(19);
            }
            2 => self.bracketed(20, size, Self::array_part),
            3 => self.bracketed(22, size, Self::object_part),
            _ => self.atom(),
        }
    }

    fn atom(&mut self) {
        if self.random.once_in(3) {
            let literal = 7 + self.random.below(7) as u8;
            return self.put(literal);
        }
        self.name();
    }

    fn bracketed(&mut self, open: u8, size: usize, part: fn(&mut Self, usize)) {
        self.put(open);
        self.depth += 1;
        if size > 2 && self.depth < OPEN {
            self.items(size - 2, 24, part);
        }
        self.depth -= 1;
        self.put(open + 1);
    }

    fn array_part(&mut self, size: usize) {
        match self.random.below(8) {
            0 => {}
            1 => {
                self.put(28);
                self.assignment(size);
            }
            _ => self.assignment(size),
        }
        if self.list.kinds.last() == Some(&24) {
            self.put(24);
        } else if self.list.kinds.last() == Some(&20) {
            self.name();
        }
    }

    fn object_part(&mut self, size: usize) {
        match self.random.below(6) {
            0 => {
                self.put(28);
                self.assignment(size);
            }
            1 => self.name(),
            2 if self.fault(4) => {
                self.name();
                self.put(63);
                self.assignment(size);
            }
            _ => {
                self.key(size / 4);
                self.put(25);
                self.assignment(size - size / 4);
            }
        }
    }

    fn key(&mut self, size: usize) {
        if size > 2 && self.depth < OPEN && self.random.once_in(3) {
            self.put(20);
            self.depth += 1;
            self.assignment(size - 2);
            self.depth -= 1;
            return self.put(21);
        }
        let word = self.random.pick(&[1, 1, 1, 2, 5, 6, 8, 11, 12, 14, 17, 33, 53]);
        self.put(word);
    }

    /// A name, Member or Index, perhaps in parentheses.
    fn simple(&mut self, size: usize) {
        if size > 2 && self.depth < OPEN && self.random.once_in(5) {
            self.put(18);
            self.depth += 1;
            self.simple(size - 2);
            self.depth -= 1;
            return self.put(19);
        }
        if size < 3 {
            return self.name();
        }
        if self.fault(12) {
            return self.left_hand_side(size);
        }
        self.primary(size / 2);
        if self.random.once_in(2) { self.member() } else { self.index(size / 2) }
    }

    /// A target or a binding.
    fn target(&mut self, size: usize, side: Side) {
        match self.random.below(3) {
            _ if size < 3 || self.depth >= OPEN => self.name(),
            0 if side == Side::Target => self.simple(size),
            0 => self.name(),
            1 => self.pattern(20, size, side),
            _ => self.pattern(22, size, side),
        }
    }

    /// A target or a binding with an optional default.
    fn element(&mut self, size: usize, side: Side) {
        if size < 3 || !self.random.once_in(2) {
            return self.target(size, side);
        }
        self.target(size / 2, side);
        let operator = if self.fault(6) { 65 } else { 63 };
        self.put(operator);
        self.assignment(size / 2);
    }

    fn pattern(&mut self, open: u8, size: usize, side: Side) {
        let wrapped = side == Side::Target && self.fault(10);
        if wrapped {
            self.put(18);
        }
        self.put(open);
        self.depth += 1;
        if self.depth < OPEN {
            let parts = self.parts(size - 2);
            let count = parts.len();
            for (i, part) in parts.into_iter().enumerate() {
                self.part(open, part.saturating_sub(1), side, i + 1 == count);
                if i + 1 < count {
                    self.put(24);
                }
            }
        }
        self.depth -= 1;
        self.put(open + 1);
        if wrapped {
            self.put(19);
        }
    }

    /// One part of a pattern: a hole, a rest, an element or a property.
    fn part(&mut self, open: u8, size: usize, side: Side, last: bool) {
        if (last && self.random.once_in(4)) || self.fault(10) {
            return self.rest(size, side, open == 22);
        }
        if open == 20 {
            if self.random.once_in(6) {
                self.put(24)
            } else {
                self.element(size, side)
            }
            return;
        }
        match self.random.below(3) {
            0 => self.name(),
            1 => {
                self.name();
                self.put(63);
                self.assignment(size);
            }
            _ => {
                self.key(size / 4);
                self.put(25);
                self.element(size - size / 4, side);
            }
        }
    }

    fn rest(&mut self, size: usize, side: Side, object: bool) {
        self.put(28);
        match (side, object && !self.fault(4)) {
            (Side::Binding, true) => self.name(),
            (Side::Target, true) => self.simple(size),
            _ => self.target(size, side),
        }
        if self.fault(6) {
            self.put_all(&[63, 1]);
        }
        if self.fault(6) {
            self.put(24);
        }
    }
}
