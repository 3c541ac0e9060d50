//! Standard input and output. Before `main`, Rust's runtime opens /dev/null in the place of a closed one, and what is written
//! there would be lost in silence; so whether they are open is looked at before that.

use std::io::{self, Write};
use std::sync::atomic::{AtomicBool, Ordering};

const INPUT: i32 = 0;
const OUTPUT: i32 = 1;

static INPUT_OPEN: AtomicBool = AtomicBool::new(true);
static OUTPUT_OPEN: AtomicBool = AtomicBool::new(true);

/// The system runs what stands in this section when the program is loaded.
#[used]
#[link_section = ".init_array"]
static BEFORE_MAIN: extern "C" fn() = look;

extern "C" fn look() {
    INPUT_OPEN.store(is_open(INPUT), Ordering::Relaxed);
    OUTPUT_OPEN.store(is_open(OUTPUT), Ordering::Relaxed);
}

fn is_open(descriptor: i32) -> bool {
    unsafe extern "C" {
        safe fn fcntl(descriptor: i32, command: i32, ...) -> i32;
    }
    const F_GETFD: i32 = 1;
    fcntl(descriptor, F_GETFD) != -1
}

fn unless_closed(open: &AtomicBool) -> io::Result<()> {
    if open.load(Ordering::Relaxed) {
        return Ok(());
    }
    Err(io::Error::other("it is closed"))
}

/// Standard input.
pub fn input() -> io::Result<io::Stdin> {
    unless_closed(&INPUT_OPEN)?;
    Ok(io::stdin())
}

/// Writes all of it to standard output, or says why not.
pub fn print(bytes: &[u8]) -> io::Result<()> {
    if bytes.is_empty() {
        return Ok(());
    }
    unless_closed(&OUTPUT_OPEN)?;
    let mut out = io::stdout().lock();
    out.write_all(bytes)?;
    out.flush()
}
