//! Stands for crate::modifiers: the words before a property's name. JavaScript has `async` alone, before a method.
use super::diagnostics::Diagnostic;
use super::guess::Guess;
use super::lexer::{Kind, Token};
use super::parser::{ParserConfig, ParserImpl};
use super::span::Span;

/// Modifier: a word and where it stands.
#[derive(Debug)]
pub struct Modifier {
    pub span: Span,
    pub kind: Kind,
}

/// Modifiers: those before one property.
#[derive(Debug)]
pub struct Modifiers(Vec<Modifier>);

impl Modifiers {
    /// Modifiers::contains_async.
    pub fn contains_async(&self) -> bool {
        self.0.iter().any(|modifier| modifier.kind == Kind::Async)
    }
}

/// ModifierKind, as far as object.rs names it.
#[derive(Debug, Clone, Copy, PartialEq)]
pub enum ModifierKind {
    Async,
}

/// ModifierKinds: those that are allowed.
#[derive(Debug, Clone)]
pub struct ModifierKinds(Vec<ModifierKind>);

impl ModifierKinds {
    /// ModifierKinds::new.
    pub fn new<const N: usize>(kinds: [ModifierKind; N]) -> Self {
        ModifierKinds(kinds.to_vec())
    }

    /// ModifierKinds::none.
    pub fn none() -> Self {
        ModifierKinds(Vec::new())
    }
}

/// Whether a property's name, or what starts one, follows on the same line.
fn name_follows(next: Token) -> bool {
    let starts = matches!(next.kind, Kind::LBrack | Kind::LCurly | Kind::Star | Kind::Dot3 | Kind::Str | Kind::Decimal);
    !next.new_line && (starts || next.kind.is_word())
}

impl<C: ParserConfig> ParserImpl<'_, C> {
    /// parse_modifiers: words that could be modifiers, as long as a name follows. `const` is none in an object.
    pub fn parse_modifiers(&mut self, _permit_const: bool, _stop_on_static_block: bool) -> Modifiers {
        let mut list = Vec::new();
        while self.guess != Guess::NoModifiers && self.cur_kind().is_modifier_kind() && !self.at(Kind::Const) {
            if !name_follows(self.lexer.peek_token()) {
                break;
            }
            list.push(Modifier { span: self.token.span(), kind: self.cur_kind() });
            self.seen.modifier = true;
            self.bump_any();
        }
        Modifiers(list)
    }

    /// parse_contextual_modifier, for `get` and `set`: no byte of a sheet is one of these.
    pub fn parse_contextual_modifier(&mut self, kind: Kind) -> bool {
        assert!(!self.at(kind));
        false
    }

    /// verify_modifiers: an error for each one that is not allowed.
    pub fn verify_modifiers(
        &mut self,
        modifiers: &Modifiers,
        allowed: ModifierKinds,
        _strict: bool,
        error: impl Fn(&Modifier, Option<ModifierKinds>) -> Diagnostic,
    ) {
        for modifier in &modifiers.0 {
            if modifier.kind != Kind::Async || !allowed.0.contains(&ModifierKind::Async) {
                self.error(error(modifier, None));
            }
        }
    }
}
