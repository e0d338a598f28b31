//! Stands for crate::lexer: tokens are the kind bytes and flags of a sheet instead of a text.
use super::span::Span;

macro_rules! kinds {
    ($($byte:ident)*; $($more:ident)*) => {
        /// Kind: the bytes 0 to 78 first, in the order of the rules (T4), then kinds that share a byte or have none.
        #[derive(Debug, Clone, Copy, PartialEq, Eq)]
        #[repr(u8)]
        pub enum Kind { $($byte,)* $($more,)* }

        /// The kind of each byte.
        const OF_BYTE: [Kind; 79] = [$(Kind::$byte,)*];
    };
}

kinds! {
    Eof Ident Async As Satisfies Static Const This Null True False Str Decimal RegExp Await Yield Extends If LParen RParen LBrack RBrack
    LCurly RCurly Comma Colon Question Dot Dot3 Arrow Bang Tilde Typeof Void Delete New Plus2 Minus2 Question2 Pipe2 Amp2 Pipe Caret Amp
    Eq2 Eq3 Neq Neq2 LAngle RAngle LtEq GtEq Instanceof In ShiftLeft ShiftRight ShiftRight3 Plus Minus Star Slash Percent Star2 Eq PlusEq
    MinusEq StarEq SlashEq PercentEq ShiftLeftEq ShiftRightEq ShiftRight3Eq PipeEq CaretEq AmpEq Amp2Eq Pipe2Eq Question2Eq Star2Eq;
    Get Set PrivateIdentifier Abstract Accessor Declare Out Override Private Protected Public Readonly Break Case Catch Class Continue
    Debugger Default Do Else Enum Export Finally For Function Import Return Super Switch Throw Try Var While With
}

/// The words of byte 5 (T4).
pub const MODIFIER_NAMES: [Kind; 10] =
    [Kind::Abstract, Kind::Accessor, Kind::Declare, Kind::Out, Kind::Override, Kind::Private, Kind::Protected, Kind::Public, Kind::Readonly, Kind::Static];

/// The words of byte 17.
#[rustfmt::skip]
pub const RESERVED_WORDS: [Kind; 24] = [
    Kind::If, Kind::Break, Kind::Case, Kind::Catch, Kind::Class, Kind::Continue, Kind::Debugger, Kind::Default, Kind::Do, Kind::Else,
    Kind::Enum, Kind::Export, Kind::Finally, Kind::For, Kind::Function, Kind::Import, Kind::Return, Kind::Super, Kind::Switch, Kind::Throw,
    Kind::Try, Kind::Var, Kind::While, Kind::With,
];

impl Kind {
    /// The kind of a byte of the rules.
    pub fn of(byte: u8) -> Kind {
        OF_BYTE[byte as usize]
    }

    /// The byte of a kind.
    pub fn byte(self) -> u8 {
        match self as u8 {
            byte if byte < OF_BYTE.len() as u8 => byte,
            _ if MODIFIER_NAMES.contains(&self) => 5,
            _ => 17,
        }
    }

    /// A name of the rules (T5).
    pub fn is_name(self) -> bool {
        matches!(self.byte(), 1..=5)
    }

    /// A word of the rules (T6): what may be a key, or stand after a dot. Kind::is_identifier_name in the crate.
    pub fn is_word(self) -> bool {
        matches!(self.byte(), 1..=10 | 14..=17 | 32..=35 | 52 | 53)
    }

    /// Kind::is_number. One byte stands for all numbers.
    pub fn is_number(self) -> bool {
        self == Kind::Decimal
    }

    /// Kind::is_literal (T7).
    pub fn is_literal(self) -> bool {
        matches!(self.byte(), 8..=13)
    }

    /// Kind::is_binding_identifier (T8).
    pub fn is_binding_identifier(self) -> bool {
        matches!(self.byte(), 1..=5 | 14 | 15)
    }

    /// Kind::is_modifier_kind (T8).
    pub fn is_modifier_kind(self) -> bool {
        matches!(self.byte(), 2 | 5 | 6 | 53)
    }

    /// Kind::is_identifier_reference. Await and Yield are outside the base, so they are none in any context.
    pub fn is_identifier_reference(self, _yield: bool, _await: bool) -> bool {
        self.is_name()
    }

    /// Kind::is_assignment_operator.
    pub fn is_assignment_operator(self) -> bool {
        matches!(self.byte(), 63..=78)
    }
}

/// Token: a kind, its place in the list, and whether a break stands before it.
#[derive(Debug, Clone, Copy)]
pub struct Token {
    pub kind: Kind,
    pub place: u32,
    pub new_line: bool,
}

impl Token {
    /// Token::kind.
    pub fn kind(&self) -> Kind {
        self.kind
    }

    /// Token::is_on_new_line.
    pub fn is_on_new_line(&self) -> bool {
        self.new_line
    }

    /// Token::start.
    pub fn start(&self) -> u32 {
        self.place
    }

    /// Token::span.
    pub fn span(&self) -> Span {
        Span { start: self.place, end: self.place + 1 }
    }
}

/// Lexer: the list, and the place of the token that comes next.
pub struct Lexer<'a> {
    pub kinds: &'a [Kind],
    pub flags: &'a [u8],
    pub position: usize,
}

impl Lexer<'_> {
    /// Lexer::next_token. The first token of a text is on a new line; past the end there is Eof.
    pub fn next_token(&mut self) -> Token {
        let place = self.position.min(self.kinds.len());
        self.position = place + 1;
        match self.kinds.get(place) {
            Some(&kind) => Token { kind, place: place as u32, new_line: place == 0 || self.flags[place] == 1 },
            None => Token { kind: Kind::Eof, place: place as u32, new_line: false },
        }
    }

    /// Lexer::peek_token: a checkpoint, the next token, and back.
    pub fn peek_token(&mut self) -> Token {
        let position = self.position;
        let token = self.next_token();
        self.position = position;
        token
    }

    /// Lexer::advance_to_end.
    pub fn advance_to_end(&mut self) {
        self.position = self.kinds.len();
    }
}
