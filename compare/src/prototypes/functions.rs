//! The functions in Rust, as texts that modules of compare/ include.

use super::{Form, Parameter, Prototype};

/// For call/direct.rs: the linked functions, and `call`, which calls one by its name.
pub fn direct(prototypes: &[Prototype]) -> String {
    let declared = each(prototypes, |prototype| {
        let (name, parameters) = (&prototype.name, list(prototype, c_parameter));
        format!("    pub fn {name}({parameters}) -> u8;\n")
    });
    let arms = each(prototypes, arm);
    format!(
        r#"{MADE}
extern "C" {{
{declared}}}

pub fn call(name: &str, numbers: &[u32], lent: &mut [&mut dyn Memory]) -> u8 {{
    // SAFETY: each pointer is good for the length beside it, and each leads to memory of its own.
    unsafe {{
        match (name, numbers, lent) {{
{arms}            _ => panic!("{{name}} is not there, or has other arguments"),
        }}
    }}
}}
"#
    )
}

/// For opl.rs: the functions on slices, which `lend` lends with guards.
pub fn guarded(prototypes: &[Prototype]) -> String {
    let functions = each(prototypes, |prototype| {
        let numbers = prototype.numbers();
        let numbers = numbers.map(|number| widened(number, &name_of(number)));
        let buffers = prototype.buffers().map(loan);
        let body = format!(
            r#"lend("{}", &[{}], &mut [{}])"#,
            prototype.name,
            joined(numbers),
            joined(buffers)
        );
        function(prototype, "#[track_caller]\n", &body)
    });
    format!("{MADE}{functions}")
}

/// For bench/library.rs: the functions on slices, with nothing around the call.
pub fn bare(prototypes: &[Prototype]) -> String {
    let functions = each(prototypes, |prototype| {
        let (name, arguments) = (&prototype.name, list(prototype, bare_argument));
        function(
            prototype,
            "",
            &format!("unsafe {{ direct::{name}({arguments}) }}"),
        )
    });
    format!("{MADE}{functions}")
}

pub(super) const MADE: &str = "// Written by build.rs from include/opl.h.\n";

/// What every number is carried in to where the call is made.
const CARRIED: &str = "u32";

/// Words that C leaves free for a parameter's name and Rust does not.
const RESERVED: [&str; 33] = [
    "abstract", "as", "async", "await", "become", "box", "dyn", "final", "fn", "gen", "impl", "in",
    "let", "loop", "macro", "match", "mod", "move", "mut", "override", "priv", "pub", "ref",
    "trait", "try", "type", "typeof", "unsafe", "unsized", "use", "virtual", "where", "yield",
];

/// A parameter's name.
pub(super) fn name_of(parameter: &Parameter) -> String {
    raw(&parameter.name)
}

fn raw(name: &str) -> String {
    match RESERVED.contains(&name) {
        true => format!("r#{name}"),
        false => name.to_string(),
    }
}

pub(super) fn each(prototypes: &[Prototype], text: impl Fn(&Prototype) -> String) -> String {
    prototypes.iter().map(text).collect()
}

pub(super) fn joined(texts: impl Iterator<Item = String>) -> String {
    texts.collect::<Vec<String>>().join(", ")
}

pub(super) fn list(prototype: &Prototype, text: impl Fn(&Parameter) -> String) -> String {
    joined(prototype.parameters.iter().map(text))
}

/// A function on numbers and slices.
fn function(prototype: &Prototype, attributes: &str, body: &str) -> String {
    let (name, parameters) = (prototype.short_name(), list(prototype, slice_parameter));
    let declared = declaration(prototype);
    format!("\n{declared}{attributes}pub fn {name}({parameters}) -> u8 {{\n    {body}\n}}\n")
}

/// The comment above what is written of a function.
pub(super) fn declaration(prototype: &Prototype) -> String {
    let Prototype { name, line, .. } = prototype;
    format!("/// {name}, include/opl.h, line {line}.\n")
}

fn c_parameter(parameter: &Parameter) -> String {
    let (name, scalar) = (name_of(parameter), parameter.scalar.rust);
    match &parameter.form {
        Form::Number => format!("{name}: {scalar}"),
        Form::Read { length } => format!("{name}: *const {scalar}, {}: usize", raw(length)),
        Form::Written { length } => format!("{name}: *mut {scalar}, {}: usize", raw(length)),
    }
}

fn slice_parameter(parameter: &Parameter) -> String {
    let (name, scalar) = (name_of(parameter), parameter.scalar.rust);
    match parameter.form {
        Form::Number => format!("{name}: {scalar}"),
        Form::Read { .. } => format!("{name}: &[{scalar}]"),
        Form::Written { .. } => format!("{name}: &mut [{scalar}]"),
    }
}

/// The arm of `call` in which a function is called.
fn arm(prototype: &Prototype) -> String {
    let name = &prototype.name;
    let numbers = joined(prototype.numbers().map(name_of));
    let buffers = joined(prototype.buffers().map(name_of));
    let arguments = list(prototype, |parameter| {
        let (name, scalar) = (name_of(parameter), parameter.scalar.rust);
        match parameter.form {
            Form::Number if scalar == CARRIED => format!("*{name}"),
            Form::Number => format!("*{name} as {scalar}"),
            _ => format!("{name}.start(), {name}.length()"),
        }
    });
    format!("            (\"{name}\", [{numbers}], [{buffers}]) => {name}({arguments}),\n")
}

/// A number, written as this, in the type that it is carried in.
pub(super) fn widened(parameter: &Parameter, written: &str) -> String {
    match parameter.scalar.rust {
        CARRIED => written.to_string(),
        _ => format!("{CARRIED}::from({written})"),
    }
}

fn loan(parameter: &Parameter) -> String {
    let name = name_of(parameter);
    match parameter.form {
        Form::Written { .. } => format!("&mut Lent::written({name})"),
        _ => format!("&mut Lent::read({name})"),
    }
}

fn bare_argument(parameter: &Parameter) -> String {
    let name = name_of(parameter);
    match parameter.form {
        Form::Number => name,
        Form::Read { .. } => format!("{name}.as_ptr(), {name}.len()"),
        Form::Written { .. } => format!("{name}.as_mut_ptr(), {name}.len()"),
    }
}
