//! The functions in C, as a text that bridge.c and stack.c include.

use super::{Form, Prototype};

/// calls.h: the arguments of a call, and the functions, each to be called with such.
pub fn calls(prototypes: &[Prototype]) -> String {
    let numbers = most(prototypes, |prototype| prototype.numbers().count());
    let buffers = most(prototypes, |prototype| prototype.buffers().count());
    let functions: String = prototypes.iter().map(function).collect();
    let constants: String = prototypes.iter().map(constant).collect();
    let rows: String = prototypes.iter().map(row).collect();
    format!(
        r#"/* Written by build.rs from include/opl.h. */
#include "opl.h"

enum {{ NUMBERS = {numbers}, BUFFERS = {buffers} }};

struct buffer {{
    void *lent;
    size_t n;
}};

/* What a call is given: its numbers and its buffers, each in the order of the prototype. */
struct arguments {{
    uint32_t number[NUMBERS];
    struct buffer buffer[BUFFERS];
}};
{functions}
enum {{
{constants}    FUNCTIONS
}};

static const struct function {{
    const char *name;
    size_t numbers;
    size_t buffers;
    uint8_t (*call)(const struct arguments *a);
}} functions[FUNCTIONS] = {{
{rows}}};
"#
    )
}

/// At least 1: C has no array without elements.
fn most(prototypes: &[Prototype], count: fn(&Prototype) -> usize) -> usize {
    prototypes.iter().map(count).fold(1, usize::max)
}

fn function(prototype: &Prototype) -> String {
    let (name, short) = (&prototype.name, prototype.short_name());
    let (mut number, mut buffer) = (0.., 0..);
    let mut next_of = |form: &Form| match form {
        Form::Number => number.next(),
        _ => buffer.next(),
    };
    let arguments = prototype.parameters.iter().map(|parameter| {
        let index: usize = next_of(&parameter.form).unwrap_or_default();
        match parameter.form {
            Form::Number => format!("({})a->number[{index}]", parameter.scalar.c),
            _ => format!("a->buffer[{index}].lent, a->buffer[{index}].n"),
        }
    });
    let arguments = arguments.collect::<Vec<String>>().join(", ");
    format!(
        "
static uint8_t call_{short}(const struct arguments *a)
{{
    return {name}({arguments});
}}
"
    )
}

/// The function's place in the table.
fn constant(prototype: &Prototype) -> String {
    format!("    {},\n", prototype.short_name().to_uppercase())
}

fn row(prototype: &Prototype) -> String {
    let (name, short) = (&prototype.name, prototype.short_name());
    let (numbers, buffers) = (prototype.numbers().count(), prototype.buffers().count());
    let place = short.to_uppercase();
    format!("    [{place}] = {{\"{name}\", {numbers}, {buffers}, call_{short}}},\n")
}
