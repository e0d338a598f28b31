//! The crate's five files as they are, beside our expression levels. Stands for js/mod.rs.
#[path = "expression.rs"]
mod expression;

include!(concat!(env!("OUT_DIR"), "/four.rs"));

/// arrow.rs is included rather than named by its path: its worker is private to its module, and is asked from beside it.
#[allow(warnings)]
mod arrow {
    include!(concat!(env!("OXC_SOURCE"), "/arrow.rs"));

    impl<C: Config> ParserImpl<'_, C> {
        /// The three-way answer, with the short cut for `(` before a literal.
        pub fn three_way_answer(&mut self) -> Tristate {
            self.is_parenthesized_arrow_function_expression()
        }

        /// The worker's answer, without the short cut.
        pub fn worker_answer(&mut self) -> Tristate {
            self.lookahead(Self::is_parenthesized_arrow_function_expression_worker)
        }
    }
}

pub use grammar::CoverGrammar;

/// Tristate of js/mod.rs.
#[derive(Debug, Clone, Copy, Eq, PartialEq)]
pub enum Tristate {
    True,
    False,
    Maybe,
}

/// FunctionKind of js/mod.rs, as far as the five files name it.
#[derive(Debug, Clone, Copy, Eq, PartialEq)]
pub enum FunctionKind {
    ObjectMethod,
    Expression,
}

impl<'a, C: crate::ParserConfig> crate::ParserImpl<'a, C> {
    /// The pattern entry: a binding with an optional initializer, by binding.rs, whose function is not public.
    pub fn binding_entry(&mut self) -> crate::ast::BindingPattern<'a> {
        self.parse_binding_pattern_with_initializer()
    }
}
