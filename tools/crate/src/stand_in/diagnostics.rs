//! Stands for crate::diagnostics: an error is its function's name and its span.
use super::modifiers::{Modifier, ModifierKinds};
use super::span::Span;

/// ParserDiagnostic.
#[derive(Debug, Clone)]
pub struct Diagnostic {
    pub what: &'static str,
    pub span: Span,
}

macro_rules! diagnostics {
    ($($name:ident)*) => {
        $(pub fn $name(span: Span) -> Diagnostic {
            Diagnostic { what: stringify!($name), span }
        })*
    };
}

// Those that the five files name, and of the others what our expression levels and the parser's stand-in say.
diagnostics! {
    lineterminator_before_arrow jsx_type_parameter_in_mts_cts ts_arrow_function_this_parameter invalid_assignment invalid_lhs_assignment
    invalid_rest_assignment_target rest_element_trailing_comma spread_last_element invalid_assignment_target_default_value_operator
    binding_rest_element_last invalid_binding_rest_element a_rest_parameter_cannot_be_optional rest_element_property_name
    a_rest_element_cannot_have_an_initializer a_rest_parameter_cannot_have_an_initializer
    unexpected_token cover_initialized_name mixed_coalesce unexpected_exponential
}

/// diagnostics::identifier_async.
pub fn identifier_async(_: &str, span: Span) -> Diagnostic {
    Diagnostic { what: "identifier_async", span }
}

/// diagnostics::private_identifier_in_property_name.
pub fn private_identifier_in_property_name(_: &str, span: Span) -> Diagnostic {
    Diagnostic { what: "private_identifier_in_property_name", span }
}

/// diagnostics::modifier_cannot_be_used_here.
pub fn modifier_cannot_be_used_here(modifier: &Modifier, _: Option<ModifierKinds>) -> Diagnostic {
    Diagnostic { what: "modifier_cannot_be_used_here", span: modifier.span }
}
