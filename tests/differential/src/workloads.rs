//! Long runs to time the engine with. Without jumps a long run is a tree of
//! calls: each level calls the one below several times, and at the bottom
//! stand the instructions that a workload is about.

mod mix;

use cases::image;
use mix::mix;
use reference::questions::records;
use reference::Record;

/// A run from version 0 of a function, with one integer as its argument.
pub struct Workload {
    /// What its steps are about.
    pub name: &'static str,
    /// Its image.
    pub image: Vec<u8>,
    /// The function entered.
    pub function: usize,
}

impl Workload {
    /// The level that the run states, the highest.
    pub const LEVEL: usize = 2;

    /// The words that the run begins with.
    pub const WORDS: [i64; 2] = [-1, 5];

    /// The bottom's functions, the last of which is called by a tree whose
    /// levels make so many calls each, the lowest level first.
    fn new(name: &'static str, mark: &str, bottom: Vec<u8>, calls: &[usize]) -> Workload {
        let records = records(&bottom).expect("the bottom has records");
        let functions = records.iter().filter_map(|placed| match &placed.item {
            Record::Version(version) => Some(usize::from(version.function)),
            _ => None,
        });
        let last = functions.max().expect("the bottom has a version");
        let mut whole = bottom;
        for (function, &calls) in (last + 1..).zip(calls) {
            whole.extend(level(function, mark, calls));
        }
        Workload {
            name,
            image: whole,
            function: last + calls.len(),
        }
    }
}

/// A level of a tree: so many calls of the function below.
fn level(function: usize, mark: &str, calls: usize) -> Vec<u8> {
    let below = function - 1;
    let call = format!("r0 = call {below}.0(r0)\n");
    image(&format!(
        "version {function}.0(r0: int) -> int
           level factory
           block 0 {mark} -> r0
           {}",
        call.repeat(calls)
    ))
}

/// Five levels of eight calls and one of two.
const TREE: [usize; 6] = [8, 8, 8, 8, 8, 2];

/// All workloads.
pub fn workloads() -> Vec<Workload> {
    vec![
        Workload::new("arithmetic", "quiet", image(&arithmetic()), &TREE),
        Workload::new("vectors", "quiet", image(&vectors()), &TREE),
        Workload::new("promises", "quiet", image(&promises()), &TREE),
        Workload::new("dispatch", "quiet", image(&dispatch()), &TREE),
        Workload::new(
            "peek and poke",
            "reflective",
            image(&peek_and_poke()),
            &TREE,
        ),
        Workload::new("generated mix", "reflective", mix(), &[8, 8, 8, 5]),
        Workload::new(
            "nested skips",
            "quiet",
            image(&skips()),
            &[8, 8, 8, 8, 8, 3],
        ),
        Workload::new("wide arithmetic", "quiet", image(&wide_arithmetic()), &TREE),
    ]
}

/// Keeps r0 between −1000 and 1000, for a version with integers r12 to r15.
const BOUNDED: &str = "
    r12 = lit 7
    r13 = mul r0, r12
    r12 = lit 997
    r14 = div r13, r12
    r15 = mul r14, r12
    r0 = sub r13, r15
";

/// Arithmetic on integers.
fn arithmetic() -> String {
    let round = "
        r2 = add r0, r1
        r3 = mul r2, r2
        r4 = sub r3, r0
        r5 = div r4, r1
        r6 = less r5, r4
        r0 = select r6 ? r5 : r2
        r7 = div r0, r1
        r7 = mul r7, r1
        r0 = sub r0, r7
    ";
    format!(
        "version 0.0(r0: int) -> int
           registers r1: int, r2: int, r3: int, r4: int, r5: int, r6: int, r7: int
           block 0 quiet -> r0
             r1 = lit 1000
             {}",
        round.repeat(5)
    )
}

/// Arithmetic on integers beyond 32 bits, with products beyond 2^61 of each sign.
fn wide_arithmetic() -> String {
    let round = "
        r3 = add r0, r1
        r4 = mul r3, r2
        r5 = sub r4, r0
        r6 = div r5, r1
        r7 = less r6, r3
        r3 = select r7 ? r6 : r3
        r4 = mul r2, r6
        r5 = div r4, r2
        r0 = sub r5, r1
    ";
    format!(
        "version 0.0(r0: int) -> int
           registers r1: int, r2: int, r3: int, r4: int, r5: int, r6: int, r7: int
           block 0 quiet -> r0
             r1 = lit 3000000000
             r2 = lit -2000000000
             {}
             r0 = lit 5",
        round.repeat(5)
    )
}

/// Vectors made, copied, read and written.
fn vectors() -> String {
    let round = "
        r1 = vec [r0, r4, r5, r0, r5, r4, r0, r5]
        r2 = dup r1
        r6 = len r2
        set r2[r4] = r6
        r7 = get r2[r5]
        set r2[r5] = r7
        r3 = dup r2
        r6 = get r3[r5]
        r0 = get r3[r4]
        r1 = vec [r6, r7, r0]
        set r1[r5] = r0
        r0 = get r1[r4]
    ";
    format!(
        "version 0.0(r0: int) -> int
           registers r1: own vector, r2: own vector, r3: vector, r4: int, r5: int
           registers r6: int, r7: int, r8: int, r9: int, r10: int, r11: int
           registers r12: int, r13: int, r14: int, r15: int
           block 0 quiet -> r0
             r4 = lit 0
             r5 = lit 2
             {}
             {BOUNDED}",
        round.repeat(3)
    )
}

/// A version that forces the promise given to it twice.
const FORCES_TWICE: &str = "
    version 0.0(r0: quiet promise) -> int
      registers r1: int, r2: int
      block 0 quiet -> r2
        r1 = force r0
        r2 = force r0
        r2 = less r1, r2
";

/// The blocks that the promises of the workload delay.
const DELAYED: &str = "
    block 1 quiet -> r9
      r2 = prom 2
      r9 = force r2
      r9 = force r2
    block 2 quiet -> r9
      r3 = prom 3
      r9 = force r3
      r9 = force r3
    block 3 quiet -> r9
      r9 = add r0, r8
    block 4 quiet -> r9
      r5 = prom 5
      r9 = call 0.0(r5)
    block 5 quiet -> r9
      r9 = less r0, r8
    block 6 quiet -> r8
    block 7 quiet -> r0
";

/// Promises made, forced within one another, forced again, and given down.
fn promises() -> String {
    format!(
        "{FORCES_TWICE}
         version 1.0(r0: int) -> int
           registers r1: quiet promise, r2: quiet promise, r3: quiet promise
           registers r4: quiet promise, r5: quiet promise, r6: quiet promise
           registers r7: quiet promise, r8: int, r9: int, r10: int, r11: int
           registers r12: int, r13: int, r14: int, r15: int
           block 0 quiet -> r0
             r8 = lit 1
             r1 = prom 1
             r9 = force r1
             r10 = force r1
             r4 = prom 4
             r9 = call 0.0(r4)
             r6 = prom 6
             r10 = call 0.0(r6)
             r7 = prom 7
             r9 = force r7
             r10 = add r9, r10
             r0 = add r0, r10
             {BOUNDED}
           {DELAYED}"
    )
}

/// Dispatches on an integer, a vector, a quiet and a reflective promise.
fn dispatch() -> String {
    let round = "
        r5 = dispatch 0(r1: any, r0: int) -> int quiet
        r6 = dispatch 0(r2: any, r5: int) -> int quiet
        r7 = dispatch 0(r3: any, r6: int) -> int quiet
        r8 = dispatch 0(r4: any, r7: int) -> int quiet
    ";
    format!(
        "version 0.0(r0: int, r1: int) -> int
           block 0 quiet -> r0
             r0 = sub r0, r1
         version 0.1(r0: vector, r1: int) -> int
           registers r2: int
           block 0 quiet -> r2
             r2 = len r0
         version 0.2(r0: quiet promise, r1: int) -> int
           registers r2: int
           block 0 quiet -> r2
             r2 = force r0
         version 0.3(r0: reflective promise, r1: int) -> int
           block 0 quiet -> r1
         version 1.0(r0: int) -> int
           registers r1: any, r2: any, r3: any, r4: any, r5: int, r6: int, r7: int
           registers r8: int, r9: int, r10: int, r11: int
           registers r12: int, r13: int, r14: int, r15: int
           block 0 quiet -> r0
             r1 = move r0
             r2 = vec [r0, r0]
             r3 = prom 1
             r4 = prom 2
             {}
             r0 = add r0, r8
             {BOUNDED}
           block 1 quiet -> r0
           block 2 reflective -> r0",
        round.repeat(3)
    )
}

/// Names read and written in the own frame and, through promises, in that of a caller.
fn peek_and_poke() -> String {
    let round = "
        poke r0.x0 = r1
        r2 = peek r0.x0
        poke r0.x1 = r2
        r2 = peek r0.x1
        r3 = cast r2
    ";
    format!(
        "version 0.0(r0: quiet promise, r1: int) -> int
           registers r2: value, r3: int
           block 0 reflective -> r3
             {}
         version 1.0(r0: int) -> int
           registers r1: quiet promise, r2: value, r3: int, r4: int, r5: int, r6: int
           registers r7: int, r8: int, r9: int, r10: int, r11: int
           registers r12: int, r13: int, r14: int, r15: int
           block 0 reflective -> r0
             r1 = prom 1
             store x2 = r0
             poke r1.x3 = r0
             r3 = call 0.0(r1, r0)
             r2 = named x1
             r4 = cast r2
             r2 = peek r1.x3
             r5 = call 0.0(r1, r4)
             r2 = peek r1.x0
             r0 = cast r2
             {BOUNDED}
           block 1 quiet -> r0",
        round.repeat(4)
    )
}

/// Skips in parts of skips, taken and not, by two numbers that change.
fn skips() -> String {
    let round = "
        r2 = less r0, r1
        skip 9 unless r2
        r3 = add r0, r4
        r2 = less r3, r1
        skip 5 unless r2
        r0 = add r0, r4
        r2 = less r1, r0
        skip 1 unless r2
        r1 = sub r1, r4
        r0 = add r0, r4
        r1 = add r1, r4
        skip 2 unless r2
        r0 = sub r0, r1
        skip 0 unless r0
        r0 = sub r0, r4
    ";
    format!(
        "version 0.0(r0: int) -> int
           registers r1: int, r2: int, r3: int, r4: int
           block 0 quiet -> r0
             r1 = lit 7
             r4 = lit 3
             {}",
        round.repeat(3)
    )
}
