//! A call of each function as a value in Rust, as a text that calls.rs includes.

use super::functions::{declaration, each, joined, list, name_of, widened, MADE};
use super::{Form, Parameter, Prototype};

/// A struct for each function, with its arguments; and `every_entry`, which visits them all.
pub fn calls(prototypes: &[Prototype]) -> String {
    let structs = each(prototypes, call_struct);
    let visits = each(prototypes, |prototype| {
        format!("    visitor.visit::<{}>();\n", camel_case(prototype))
    });
    format!(
        r#"{MADE}{structs}
/// Shows the visitor every function, in the header's order.
pub fn every_entry(visitor: &mut impl Visitor) {{
{visits}}}
"#
    )
}

fn call_struct(prototype: &Prototype) -> String {
    let (of, function) = (camel_case(prototype), prototype.short_name());
    let name = &prototype.name;
    let declared = declaration(prototype);
    let fields: String = prototype.parameters.iter().map(field).collect();
    let arguments = list(prototype, passed);
    let shown: String = prototype.parameters.iter().map(shown).collect();
    let written = joined(prototype.written().map(passed));
    format!(
        r#"
{declared}#[derive(Clone, Debug)]
pub struct {of} {{
{fields}}}

impl Call for {of} {{
    const NAME: &'static str = "{name}";

    fn library(&mut self) -> u8 {{
        opl::{function}({arguments})
    }}

    fn arguments(&self) -> Vec<(&'static str, Argument<'_>)> {{
        vec![
{shown}        ]
    }}

    fn written(&mut self) -> Vec<&mut dyn Buffer> {{
        vec![{written}]
    }}
}}
"#
    )
}

fn field(parameter: &Parameter) -> String {
    let (name, scalar) = (name_of(parameter), parameter.scalar.rust);
    match parameter.form {
        Form::Number => format!("    pub {name}: {scalar},\n"),
        _ => format!("    pub {name}: Vec<{scalar}>,\n"),
    }
}

/// A field as the function on slices takes it.
fn passed(parameter: &Parameter) -> String {
    let name = name_of(parameter);
    match parameter.form {
        Form::Number => format!("self.{name}"),
        Form::Read { .. } => format!("&self.{name}"),
        Form::Written { .. } => format!("&mut self.{name}"),
    }
}

/// A field as it is shown and compared.
fn shown(parameter: &Parameter) -> String {
    let (said, name) = (&parameter.name, name_of(parameter));
    let argument = match parameter.form {
        Form::Number => {
            let number = widened(parameter, &format!("self.{name}"));
            format!("Argument::Number({number})")
        }
        _ => format!("Argument::Buffer(&self.{name})"),
    };
    format!("            (\"{said}\", {argument}),\n")
}

/// The name of a function's struct.
fn camel_case(prototype: &Prototype) -> String {
    let words = prototype.short_name().split('_');
    let capitalised = words.flat_map(|word| {
        let mut letters = word.chars();
        let first = letters.next().map(|letter| letter.to_ascii_uppercase());
        first.into_iter().chain(letters)
    });
    capitalised.collect()
}
