//! The library's functions, called by the program bridge.c, which says how a call is written.

use super::Memory;
use std::cell::RefCell;
use std::io::{Read, Write};
use std::process::{Child, Command, Stdio};

/// The bytes in which a function's name is said.
const NAME: usize = 32;

/// The running program; each thread has its own.
struct Bridge(Child);

thread_local! {
    static BRIDGE: RefCell<Bridge> = RefCell::new(Bridge::start());
}

impl Bridge {
    fn start() -> Bridge {
        let child = Command::new("sh")
            .args([env!("OPL_RUN"), "run", env!("OPL_BRIDGE")])
            .stdin(Stdio::piped())
            .stdout(Stdio::piped())
            .spawn();
        Bridge(child.expect("the bridge starts"))
    }

    fn say(&mut self, call: &[u8]) {
        let to = self
            .0
            .stdin
            .as_mut()
            .expect("the bridge has a standard input");
        to.write_all(call).expect("the bridge takes the call");
        to.flush().expect("the bridge takes the call");
    }

    fn hear(&mut self, answer: &mut [u8]) {
        let from = self
            .0
            .stdout
            .as_mut()
            .expect("the bridge has a standard output");
        from.read_exact(answer)
            .expect("the bridge answers, so the call returned");
    }
}

impl Drop for Bridge {
    fn drop(&mut self) {
        // this closes its standard input, and so it ends
        let _ = self.0.wait();
    }
}

pub fn call(name: &str, numbers: &[u32], lent: &mut [&mut dyn Memory]) -> u8 {
    let mut said = name.as_bytes().to_vec();
    assert!(said.len() <= NAME, "{name} is too long a name");
    said.resize(NAME, 0);
    put(&mut said, numbers.len());
    put(&mut said, lent.len());
    for number in numbers {
        said.extend(number.to_le_bytes());
    }
    for memory in lent.iter_mut() {
        let (begins, length) = (memory.begins(), memory.length());
        let bytes = memory.bytes();
        put(&mut said, bytes.len());
        put(&mut said, begins);
        put(&mut said, length);
        said.extend_from_slice(bytes);
    }
    BRIDGE.with_borrow_mut(|bridge| {
        let mut refusal = [0];
        bridge.say(&said);
        bridge.hear(&mut refusal);
        for memory in lent {
            bridge.hear(memory.bytes());
        }
        refusal[0]
    })
}

fn put(said: &mut Vec<u8>, number: usize) {
    said.extend(
        u32::try_from(number)
            .expect("a buffer of less than 4 GiB")
            .to_le_bytes(),
    );
}
