//! From a header's text to the functions that it declares.

use super::tokens::{is_name, tokens, without_comments, Token};
use super::{Fault, Form, Parameter, Prototype, Scalar, ELEMENTS, NUMBERS, PREFIX};

/// The functions, in the header's order. Besides them there may be enums, `extern "C" { }` and whatever is for
/// the preprocessor.
pub fn parse(header: &str) -> Result<Vec<Prototype>, Fault> {
    let plain = without_comments(header);
    let mut reader = Reader {
        tokens: tokens(&plain),
        place: 0,
        last_line: plain.lines().count(),
    };
    let mut prototypes = Vec::new();
    while let Some(token) = reader.next() {
        match token.text {
            "extern" => reader.pass("{")?,
            "enum" => reader.pass(";")?,
            "}" => reader.place += 1,
            _ => prototypes.push(reader.prototype()?),
        }
    }
    Ok(prototypes)
}

struct Reader<'a> {
    tokens: Vec<Token<'a>>,
    place: usize,
    last_line: usize,
}

impl<'a> Reader<'a> {
    fn next(&self) -> Option<Token<'a>> {
        self.tokens.get(self.place).copied()
    }

    /// What comes next is not this.
    fn fault<T>(&self, expected: &str) -> Result<T, Fault> {
        let found = self.next();
        let (line, text) = found.map_or((self.last_line, "the end"), |token| {
            (token.line, token.text)
        });
        let what = format!("expected {expected}, found {text}");
        Err(Fault { line, what })
    }

    /// Takes this token if it is the next.
    fn takes(&mut self, text: &str) -> bool {
        let found = self.next().is_some_and(|token| token.text == text);
        self.place += usize::from(found);
        found
    }

    fn take(&mut self, text: &str, what: &str) -> Result<(), Fault> {
        match self.takes(text) {
            true => Ok(()),
            false => self.fault(what),
        }
    }

    /// Goes to behind the next token that is this.
    fn pass(&mut self, text: &str) -> Result<(), Fault> {
        while self.next().is_some_and(|token| token.text != text) {
            self.place += 1;
        }
        self.take(text, text)
    }

    fn name(&mut self, what: &str) -> Result<String, Fault> {
        match self.next().filter(|token| is_name(token.text)) {
            Some(token) => {
                self.place += 1;
                Ok(token.text.to_string())
            }
            None => self.fault(what),
        }
    }

    fn prototype(&mut self) -> Result<Prototype, Fault> {
        let line = self.next().map_or(self.last_line, |token| token.line);
        self.take("uint8_t", "a function that returns uint8_t")?;
        if !self
            .next()
            .is_some_and(|next| next.text.starts_with(PREFIX))
        {
            return self.fault(&format!("a name that begins with {PREFIX}"));
        }
        let name = self.name("a name")?;
        self.take("(", "( and parameters")?;
        let mut parameters = vec![self.parameter()?];
        while self.takes(",") {
            parameters.push(self.parameter()?);
        }
        self.take(")", ") or another parameter")?;
        self.take(";", ";")?;
        Ok(Prototype {
            line,
            name,
            parameters,
        })
    }

    fn parameter(&mut self) -> Result<Parameter, Fault> {
        let constant = self.takes("const");
        let scalar = self.scalar()?;
        if !constant && self.next().is_some_and(|token| is_name(token.text)) {
            return self.number(scalar);
        }
        self.take("*", "* and the name of a buffer")?;
        let name = self.name("the name of a buffer")?;
        let what = format!("a length of type size_t after the buffer {name}");
        self.take(",", &what)?;
        self.take("size_t", &what)?;
        let length = self.name(&what)?;
        let form = match constant {
            true => Form::Read { length },
            false => Form::Written { length },
        };
        Ok(Parameter { name, scalar, form })
    }

    fn number(&mut self, scalar: Scalar) -> Result<Parameter, Fault> {
        if !NUMBERS.contains(&scalar.c) {
            let numbers = NUMBERS.join(" or ");
            return self.fault(&format!("* after {}, as a number is {numbers}", scalar.c));
        }
        let name = self.name("the name of a number")?;
        let form = Form::Number;
        Ok(Parameter { name, scalar, form })
    }

    fn scalar(&mut self) -> Result<Scalar, Fault> {
        let next = self.next();
        let known = |scalar: &&Scalar| next.is_some_and(|token| token.text == scalar.c);
        match ELEMENTS.iter().find(known) {
            Some(scalar) => {
                self.place += 1;
                Ok(*scalar)
            }
            None => {
                let all = ELEMENTS.map(|scalar| scalar.c).join(", ");
                self.fault(&format!("a type of a number or an element ({all})"))
            }
        }
    }
}
