//! A header's text as words and signs.

/// A word, or a sign of one character.
#[derive(Clone, Copy, Debug, PartialEq)]
pub struct Token<'a> {
    pub line: usize,
    pub text: &'a str,
}

/// The text without its comments, each line where it was.
pub fn without_comments(text: &str) -> String {
    let mut plain = String::new();
    let mut rest = text;
    while let Some(begins) = rest.find("/*") {
        let (before, comment) = rest.split_at(begins);
        let end = comment.find("*/").map_or(comment.len(), |end| end + 2);
        plain.push_str(before);
        plain.push(' ');
        plain.extend(comment[..end].matches('\n'));
        rest = &comment[end..];
    }
    plain + rest
}

/// The tokens of a text without comments. Lines that are for the preprocessor are left out.
pub fn tokens(plain: &str) -> Vec<Token<'_>> {
    let mut tokens = Vec::new();
    let mut directive_goes_on = false;
    for (index, line) in plain.lines().enumerate() {
        let directive = directive_goes_on || line.trim_start().starts_with('#');
        directive_goes_on = directive && line.ends_with('\\');
        if !directive {
            let code = line.split("//").next().unwrap_or(line);
            let line = index + 1;
            tokens.extend(words(code).map(|text| Token { line, text }));
        }
    }
    tokens
}

fn words(line: &str) -> impl Iterator<Item = &str> {
    let mut rest = line.trim_start();
    std::iter::from_fn(move || {
        let first = rest.chars().next()?;
        let end = match is_of_word(first) {
            true => rest.find(|c| !is_of_word(c)).unwrap_or(rest.len()),
            false => first.len_utf8(),
        };
        let (word, after) = rest.split_at(end);
        rest = after.trim_start();
        Some(word)
    })
}

fn is_of_word(c: char) -> bool {
    c.is_ascii_alphanumeric() || c == '_'
}

pub fn is_name(word: &str) -> bool {
    word.starts_with(|c: char| c.is_ascii_alphabetic() || c == '_')
}
