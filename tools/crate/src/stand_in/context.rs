//! Stands for crate::context: what may stand here by where it stands.

/// Context: a set of flags. Only Await and Yield are ever asked for by the five files.
#[derive(Debug, Clone, Copy, PartialEq)]
pub struct Context(u8);

#[allow(non_upper_case_globals)]
impl Context {
    pub const In: Context = Context(1);
    pub const TopLevel: Context = Context(2);
    const Await: Context = Context(4);
    const Yield: Context = Context(8);

    /// Context::has_await.
    pub fn has_await(self) -> bool {
        self.0 & Self::Await.0 != 0
    }

    /// Context::has_yield.
    pub fn has_yield(self) -> bool {
        self.0 & Self::Yield.0 != 0
    }

    /// The set with these flags on or off.
    pub fn with(self, flags: Context, on: bool) -> Self {
        Context(if on { self.0 | flags.0 } else { self.0 & !flags.0 })
    }

    /// Context::and_await.
    pub fn and_await(self, on: bool) -> Self {
        self.with(Self::Await, on)
    }

    /// Context::and_yield.
    pub fn and_yield(self, on: bool) -> Self {
        self.with(Self::Yield, on)
    }

    /// Context::union_await_if.
    pub fn union_await_if(self, on: bool) -> Self {
        if on { self.and_await(true) } else { self }
    }
}
