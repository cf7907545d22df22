//! What include/opl.h declares, read from its text: the one place where a signature is said. build.rs has this
//! module too, and writes with it what follows from the signatures: the functions in Rust ([`functions`]), a call
//! of each as a value ([`values`]), and the functions as bridge.c and stack.c call them ([`c`]).

pub mod c;
pub mod functions;
mod parse;
mod tokens;
pub mod values;

pub use parse::parse;

/// A function.
#[derive(Clone, Debug, PartialEq)]
pub struct Prototype {
    /// The header's line that it begins on.
    pub line: usize,
    pub name: String,
    pub parameters: Vec<Parameter>,
}

#[derive(Clone, Debug, PartialEq)]
pub struct Parameter {
    pub name: String,
    /// Of the number, or of each element.
    pub scalar: Scalar,
    pub form: Form,
}

/// How a parameter is handed over: as a number, or as a pointer and a length, which has a name of its own.
#[derive(Clone, Debug, PartialEq)]
pub enum Form {
    Number,
    /// A const buffer.
    Read {
        length: String,
    },
    /// Any other buffer. It may be read as well: its content before the call is part of what the call is given, so
    /// a state that is carried from call to call needs no form of its own.
    Written {
        length: String,
    },
}

/// A type, by its name in C and in Rust.
#[derive(Clone, Copy, Debug, PartialEq)]
pub struct Scalar {
    pub c: &'static str,
    pub rust: &'static str,
}

/// What a buffer may be made of.
const ELEMENTS: [Scalar; 7] = [
    scalar("uint8_t", "u8"),
    scalar("int8_t", "i8"),
    scalar("uint16_t", "u16"),
    scalar("int16_t", "i16"),
    scalar("uint32_t", "u32"),
    scalar("int32_t", "i32"),
    scalar("float", "f32"),
];

/// What a number may be.
const NUMBERS: [&str; 2] = ["uint8_t", "uint32_t"];

const fn scalar(c: &'static str, rust: &'static str) -> Scalar {
    Scalar { c, rust }
}

impl Prototype {
    pub fn numbers(&self) -> impl Iterator<Item = &Parameter> {
        let is_number = |parameter: &&Parameter| parameter.form == Form::Number;
        self.parameters.iter().filter(is_number)
    }

    pub fn buffers(&self) -> impl Iterator<Item = &Parameter> {
        let is_buffer = |parameter: &&Parameter| parameter.form != Form::Number;
        self.parameters.iter().filter(is_buffer)
    }

    /// The buffers that a call may write.
    pub fn written(&self) -> impl Iterator<Item = &Parameter> {
        let is_written = |parameter: &&Parameter| matches!(parameter.form, Form::Written { .. });
        self.parameters.iter().filter(is_written)
    }

    /// The name without what all of them begin with.
    pub fn short_name(&self) -> &str {
        self.name.strip_prefix(PREFIX).unwrap_or(&self.name)
    }
}

/// What every name begins with.
const PREFIX: &str = "opl_";

/// A line of the header that is not understood.
#[derive(Debug, PartialEq)]
pub struct Fault {
    pub line: usize,
    pub what: String,
}
