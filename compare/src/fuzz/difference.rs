//! What a case that does not end well has to say.

use crate::calls::{Argument, Call};
use crate::element::Buffer;
use std::any::Any;
use std::fmt::{self, Display, Formatter};
use std::ops::Range;
use std::panic::{catch_unwind, AssertUnwindSafe};

/// A fault and the case that shows it.
#[derive(Debug)]
pub struct Difference {
    pub seed: u64,
    pub case: u64,
    pub(super) fault: Fault,
}

impl Display for Difference {
    fn fmt(&self, to: &mut Formatter) -> fmt::Result {
        let Difference { seed, case, fault } = self;
        writeln!(to, "DIFFERENCE in case {case} of seed {seed}")?;
        writeln!(to, "{}\n{}", fault.call, fault.what)?;
        write!(
            to,
            "alone: cargo run --release --offline --locked --bin fuzz -- --case {case} {seed}"
        )
    }
}

/// A call and what is wrong with its answer.
#[derive(Debug)]
pub(super) struct Fault {
    call: String,
    what: String,
}

impl Fault {
    /// Of a call, as it was before it was made.
    pub(super) fn of_call<C: Call>(call: &C, what: String) -> Fault {
        let arguments = call.arguments().into_iter().map(|(name, argument)| {
            let shown = match argument {
                Argument::Number(number) => format!("{number}"),
                Argument::Buffer(buffer) => short(buffer),
            };
            format!("\n  {name}: {shown}")
        });
        let call = C::NAME.to_string() + &arguments.collect::<String>();
        Fault { call, what }
    }

    /// Of a case that came to no call.
    pub(super) fn of_case(what: String) -> Fault {
        let call = "the case itself".to_string();
        Fault { call, what }
    }
}

/// Their number and the elements in hexadecimal, of many the first and the last: headers stand in front or at the
/// end.
fn short(buffer: &dyn Buffer) -> String {
    const WHOLE: usize = 128;
    const PART: usize = 16;
    let count = buffer.count();
    if count <= WHOLE {
        return format!("{count} of {}", hex(buffer, 0..count));
    }
    let (front, end) = (hex(buffer, 0..PART), hex(buffer, count - PART..count));
    format!("{count} of {front} .. {end}")
}

pub(super) fn hex(buffer: &dyn Buffer, places: Range<usize>) -> String {
    let digits = buffer.digits();
    places
        .map(|place| format!("{:0digits$X}", buffer.bits(place)))
        .collect()
}

/// Runs it, or says with what words it panics. A call that breaks a rule of lent memory does.
pub(super) fn caught<T>(run: impl FnOnce() -> T) -> Result<T, String> {
    catch_unwind(AssertUnwindSafe(run)).map_err(|panic| words(&*panic))
}

fn words(panic: &(dyn Any + Send)) -> String {
    let fixed = panic.downcast_ref::<&str>().map(ToString::to_string);
    let made = panic.downcast_ref::<String>().cloned();
    fixed.or(made).unwrap_or_else(|| "no words".to_string())
}
