//! What texts in quotes stand for, and how a table shows them.

use std::borrow::Cow;

/// What a text with escapes stands for; it has none but those of the grammar.
pub fn unescaped(written: &str) -> Cow<'_, str> {
    if !written.contains('\\') {
        return Cow::Borrowed(written);
    }
    let mut text = String::with_capacity(written.len());
    let mut chars = written.chars();
    while let Some(c) = chars.next() {
        text.push(match c {
            '\\' => match chars.next() {
                Some('n') => '\n',
                Some('t') => '\t',
                escaped => escaped.unwrap_or_default(),
            },
            c => c,
        });
    }
    Cow::Owned(text)
}

/// A text whose control characters are spaces.
pub fn cleaned(text: &str) -> Cow<'_, str> {
    if text.bytes().all(|b| (b' '..0x7f).contains(&b)) || !text.contains(char::is_control) {
        return Cow::Borrowed(text);
    }
    Cow::Owned(text.replace(char::is_control, " "))
}
