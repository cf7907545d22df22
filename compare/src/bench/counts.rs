//! The instructions of a call, as valgrind's callgrind counts them. The program runs itself under callgrind and
//! calls each side of each row N times and then 2N times, each between two marks. Callgrind writes what it
//! counted at every mark, and the difference of the two is N calls and nothing else.

use super::row::{Row, SIDES};
use crate::rng::Rng;
use std::fs;
use std::hint::black_box;
use std::path::Path;
use std::process::{Command, Stdio};

/// N.
const CALLS: usize = 8;

/// What callgrind knows the mark by.
const MARK: &str = "opl_bench_mark";
/// The marks of one side of one row: before N calls, between, and after 2N calls.
const MARKS: usize = 3;

/// Callgrind writes its counts, and counts from 0 again, whenever this is called.
#[no_mangle]
#[inline(never)]
extern "C" fn opl_bench_mark() {
    black_box(());
}

/// The run that callgrind looks at. Each side is called once before, as the first call may make tables.
pub fn run_marked(rows: &mut [Box<dyn Row + '_>]) {
    let mut rng = Rng::new(1);
    for row in rows {
        row.renew(&mut rng);
        for side in SIDES {
            row.call(side, 1);
        }
        row.compare();
        for side in SIDES {
            opl_bench_mark();
            row.call(side, CALLS);
            opl_bench_mark();
            row.call(side, 2 * CALLS);
            opl_bench_mark();
        }
    }
}

/// The instructions of one call on each side, of that many rows: this program is run under callgrind with
/// `word`, on which it is to call [`run_marked`].
pub fn count(rows: usize, word: &str) -> Result<Vec<[u64; 2]>, String> {
    let folder = std::env::temp_dir().join(format!("opl-bench-{}", std::process::id()));
    let said = |error: std::io::Error| format!("{}: {error}", folder.display());
    fs::create_dir(&folder).map_err(said)?;
    let counts = run_callgrind(&folder.join("counts"), word)
        .and_then(|()| read_counts(&folder.join("counts"), rows));
    fs::remove_dir_all(&folder).map_err(said)?;
    counts
}

fn run_callgrind(out: &Path, word: &str) -> Result<(), String> {
    let program = std::env::current_exe().map_err(|error| error.to_string())?;
    let status = Command::new("valgrind")
        .args(["--quiet", "--tool=callgrind"])
        .arg(format!("--dump-before={MARK}"))
        .arg(format!("--callgrind-out-file={}", out.display()))
        .arg(program)
        .arg(word)
        .stdout(Stdio::null())
        .status()
        .map_err(|error| format!("valgrind was not run: {error}"))?;
    if status.success() {
        Ok(())
    } else {
        Err(format!("valgrind: {status}"))
    }
}

fn read_counts(out: &Path, rows: usize) -> Result<Vec<[u64; 2]>, String> {
    let side = |first: usize| -> Result<u64, String> {
        // the dump of a mark has what was counted since the mark before
        let [once, twice] = [first + 1, first + 2].map(|mark| total(out, mark));
        Ok(twice?.saturating_sub(once?) / CALLS as u64)
    };
    (0..rows)
        .map(|row| {
            let first = 2 * MARKS * row + 1;
            Ok([side(first)?, side(first + MARKS)?])
        })
        .collect()
}

/// What callgrind counted up to a mark, the first being 1.
fn total(out: &Path, mark: usize) -> Result<u64, String> {
    let dump = format!("{}.{mark}", out.display());
    let text = fs::read_to_string(&dump).map_err(|error| format!("{dump}: {error}"))?;
    text.lines()
        .find_map(|line| line.strip_prefix("totals: ")?.trim().parse().ok())
        .ok_or(format!("{dump} has no total"))
}
