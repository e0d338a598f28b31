//! A list as it is shown: its tokens, and a sign where a break stands.
use lists::List;
use lists::kinds::spellings;

/// The tokens of a list, with `↵` before one on a new line.
pub fn shown(kinds: &[u8], flags: &[u8]) -> String {
    let texts = spellings();
    let token = |(&kind, &flag): (&u8, &u8)| format!("{}{}", if flag == 1 { "↵ " } else { "" }, texts[kind as usize]);
    kinds.iter().zip(flags).map(token).collect::<Vec<_>>().join(" ")
}

/// The same of a whole list.
pub fn show(list: &List) -> String {
    shown(&list.kinds, &list.flags)
}
