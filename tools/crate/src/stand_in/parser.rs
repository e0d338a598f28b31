//! Stands for ParserImpl of lib.rs and for cursor.rs: the current token, moving on, looking ahead, going back.
use super::allocator::ArenaBox;
use super::context::Context;
use super::diagnostics::Diagnostic;
use super::guess::Guess;
use super::lexer::{Kind, Lexer, Token};
use super::span::{SourceType, Span};
use super::state::{Checkpoint, FatalError, ParserState};
use std::marker::PhantomData;

/// ParserConfig of config.rs: nothing of it is used.
pub trait ParserConfig {}

/// The one configuration.
pub struct Plain;

impl ParserConfig for Plain {}

/// What a parser is told beside the list: TypeScript, JSX, and which guess it follows.
#[derive(Debug, Clone, Copy)]
pub struct Settings {
    pub is_ts: bool,
    pub jsx: bool,
    pub guess: Guess,
}

impl Settings {
    /// JavaScript without JSX, as a sheet is read.
    pub fn sheet(guess: Guess) -> Self {
        Settings { is_ts: false, jsx: false, guess }
    }
}

/// What the stand-ins did in this list where the rules differ from the crate outside of the comparison; compare/classes.rs names it.
#[derive(Debug, Clone, Copy, Default)]
pub struct Seen {
    /// A comma after a binding's rest was reported.
    pub rest_comma: bool,
    /// A modifier was eaten before a property's name.
    pub modifier: bool,
}

/// ParserImpl: the fields that the five files use, by their names.
pub struct ParserImpl<'a, C: ParserConfig> {
    pub lexer: Lexer<'a>,
    pub source_type: SourceType,
    pub errors: Vec<Diagnostic>,
    pub fatal_error: Option<FatalError>,
    pub token: Token,
    pub prev_token_end: u32,
    pub state: ParserState<'a>,
    pub ctx: Context,
    pub is_ts: bool,
    pub guess: Guess,
    pub seen: Seen,
    config: PhantomData<C>,
}

impl<'a, C: ParserConfig> ParserImpl<'a, C> {
    /// A parser at a place of a list. As in parse_expression of lib.rs it has moved onto its first token.
    pub fn new(kinds: &'a [Kind], flags: &'a [u8], settings: Settings, place: usize) -> Self {
        let mut lexer = Lexer { kinds, flags, position: place };
        let token = lexer.next_token();
        ParserImpl {
            lexer,
            source_type: SourceType { jsx: settings.jsx },
            errors: Vec::new(),
            fatal_error: None,
            token,
            prev_token_end: 0,
            state: ParserState::default(),
            ctx: Context::In,
            is_ts: settings.is_ts,
            guess: settings.guess,
            seen: Seen::default(),
            config: PhantomData,
        }
    }

    /// cur_token.
    pub fn cur_token(&self) -> Token {
        self.token
    }

    /// cur_kind.
    pub fn cur_kind(&self) -> Kind {
        self.token.kind
    }

    /// cur_start.
    pub fn cur_start(&self) -> u32 {
        self.token.place
    }

    /// end_span: from a start to the end of the token before this one.
    pub fn end_span(&self, start: u32) -> Span {
        Span { start, end: self.prev_token_end }
    }

    /// at.
    pub fn at(&self, kind: Kind) -> bool {
        self.token.kind == kind
    }

    /// bump_any: moves on by one token.
    pub fn bump_any(&mut self) {
        self.prev_token_end = (self.token.place + 1).min(self.lexer.kinds.len() as u32);
        self.token = self.lexer.next_token();
    }

    /// bump: moves on if the token is of this kind.
    pub fn bump(&mut self, kind: Kind) {
        if self.at(kind) {
            self.bump_any();
        }
    }

    /// eat: whether it is of this kind; then it has moved on.
    pub fn eat(&mut self, kind: Kind) -> bool {
        let is = self.at(kind);
        self.bump(kind);
        is
    }

    /// expect: another kind is a fatal error; it moves on in any case.
    pub fn expect(&mut self, kind: Kind) {
        if !self.at(kind) {
            self.set_unexpected();
            if self.guess == Guess::ExpectStays {
                return;
            }
        }
        self.bump_any();
    }

    /// alloc of lib.rs.
    pub fn alloc<T>(&self, node: T) -> ArenaBox<'a, T> {
        ArenaBox::of(node)
    }

    /// checkpoint: the lexer's position, as in lexer/mod.rs, and the parser's own state but for its collections.
    fn checkpoint(&mut self) -> Checkpoint {
        let keys =
            (self.guess == Guess::RewindRestores).then(|| (self.state.trailing_commas.clone(), self.state.cover_initialized_name.keys().copied().collect()));
        let fatal_error = if self.guess == Guess::CheckpointKeepsFatal { None } else { self.fatal_error.take() };
        Checkpoint { position: self.lexer.position, token: self.token, previous_end: self.prev_token_end, errors_len: self.errors.len(), fatal_error, keys }
    }

    /// checkpoint_with_error_recovery: differs from checkpoint by the lexer's errors, which a list cannot have.
    pub fn checkpoint_with_error_recovery(&mut self) -> Checkpoint {
        self.checkpoint()
    }

    /// rewind: back to a checkpoint.
    pub fn rewind(&mut self, checkpoint: Checkpoint) {
        self.lexer.position = checkpoint.position;
        self.token = checkpoint.token;
        self.prev_token_end = checkpoint.previous_end;
        self.errors.truncate(checkpoint.errors_len);
        self.fatal_error = checkpoint.fatal_error;
        if let Some((commas, names)) = checkpoint.keys {
            self.state.trailing_commas = commas;
            self.state.cover_initialized_name.retain(|key, _| names.contains(key));
        }
    }

    /// lookahead: what a function answers from here, and back.
    pub fn lookahead<T>(&mut self, answer: impl FnOnce(&mut Self) -> T) -> T {
        let checkpoint = self.checkpoint();
        let answered = answer(self);
        self.rewind(checkpoint);
        answered
    }

    /// context_add: with these flags on.
    pub fn context_add<T>(&mut self, flags: Context, read: impl FnOnce(&mut Self) -> T) -> T {
        self.in_context(self.ctx.with(flags, true), read)
    }

    /// context_remove: with these flags off.
    pub fn context_remove<T>(&mut self, flags: Context, read: impl FnOnce(&mut Self) -> T) -> T {
        self.in_context(self.ctx.with(flags, false), read)
    }

    /// What is read in another context.
    fn in_context<T>(&mut self, context: Context, read: impl FnOnce(&mut Self) -> T) -> T {
        let before = self.ctx;
        self.ctx = context;
        let done = read(self);
        self.ctx = before;
        done
    }
}
