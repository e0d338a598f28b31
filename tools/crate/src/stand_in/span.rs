//! Stands for oxc_span. A span counts tokens, not bytes.
use super::allocator::ArenaBox;

/// Span: the first token, and the one past the last.
#[derive(Debug, Clone, Copy, PartialEq, Eq, Default)]
pub struct Span {
    pub start: u32,
    pub end: u32,
}

/// GetSpan: what has a span.
pub trait GetSpan {
    fn span(&self) -> Span;
}

impl<T: GetSpan> GetSpan for ArenaBox<'_, T> {
    fn span(&self) -> Span {
        (**self).span()
    }
}

/// FileExtension, as far as arrow.rs names it.
#[derive(Debug, Clone, Copy, PartialEq, Eq)]
pub enum FileExtension {
    Mts,
    Cts,
}

/// SourceType: whether the text has JSX. TypeScript is a field of the parser, as in lib.rs.
#[derive(Debug, Clone, Copy)]
pub struct SourceType {
    pub jsx: bool,
}

impl SourceType {
    /// SourceType::is_jsx.
    pub fn is_jsx(&self) -> bool {
        self.jsx
    }

    /// SourceType::extension: a sheet has no file name.
    pub fn extension(&self) -> Option<FileExtension> {
        None
    }
}
