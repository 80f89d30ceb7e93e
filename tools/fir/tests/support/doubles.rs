//! A script that the debugger goes through.

use super::{file, fir, Done};

/// Doubles each of two items; 1.0 borrows the vector, and works out its item when forced.
pub const DOUBLES: &str = "\
version 0.0(r0: own vector) -> own vector
  registers r1: int, r2: int
  level portal
  block 0 quiet -> r0
    r1 = lit 0
    r2 = call 1.0(r0, r1)
    set r0[r1] = r2
version 1.0(r0: borrow vector, r1: int) -> int
  registers r2: quiet promise, r3: int
  level portal
  block 0 quiet -> r3
    store x0 = r1
    r2 = prom 1
    r3 = call 2.0(r2)
    r3 = add r3, r3
  block 1 quiet -> r3
    r3 = get r0[r1]
version 2.0(r0: quiet promise) -> int
  registers r1: int
  level portal
  block 0 quiet -> r1
    r1 = force r0
";

/// The debugger on a run of `DOUBLES`, with these commands.
pub fn debugged(commands: &[&str]) -> Done {
    let file = file("debug", "doubles.fir", DOUBLES.as_bytes());
    let input = commands.join("\n") + "\n";
    fir(&["debug", &file, "0.0", "[5,6]"], input.as_bytes())
}

/// What the commands print behind what the run's start prints, without the folder.
pub fn printed(commands: &[&str]) -> Vec<String> {
    let done = debugged(commands);
    assert_eq!((done.status, done.errors.as_str()), (0, ""));
    let folder = format!("{}/debug/", env!("CARGO_TARGET_TMPDIR"));
    let text = done.text().replace(&folder, "");
    let mut lines = text.lines().map(String::from);
    let first = lines.next().unwrap_or_default();
    assert_eq!(
        first,
        "doubles.fir:5:5: after 0 steps, in 0.0, block 0: r1 = lit 0"
    );
    lines.collect()
}

/// `DOUBLES` with another 2.0, which adds 1 to what the promise gives.
pub fn doubles_and_one() -> String {
    let two = "version 2.0(r0: quiet promise) -> int\n  registers r1: int, r2: int\n";
    let (before, _) = DOUBLES.split_once("version 2.0").expect("a version 2.0");
    format!(
        "{before}{two}  level portal\n  block 0 quiet -> r1\n    r1 = force r0\n    \
         r2 = lit 1\n    r1 = add r1, r2\n"
    )
}
