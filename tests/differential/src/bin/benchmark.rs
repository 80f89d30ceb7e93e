//! How long a verdict takes, by the proved library and by the reference, how long the
//! move of an image to the form of 32 bits and the bounds of its versions, which ask
//! for one, how long joining two images, which asks for two, and how long the search for
//! a mend.

use cases::image;
use differential::broken::{misfit, unassigned, uncovered, Long};
use differential::engine;
use library::FIR_IMAGE_BYTES;
use reference::bounds::VERSIONS;
use reference::questions::records;
use reference::{bounds_of, mend, move_from, verdict, Bound, Form, Mended, Program, Verdict};
use std::fmt::Write;
use std::hint::black_box;
use std::time::Instant;

/// How often each checker is timed on each image, the two in turn.
const ROUNDS: usize = 21;

/// The records of a typical image.
const TYPICAL: usize = 60;

/// Times of one verdict in microseconds.
struct Times(Vec<f64>);

impl Times {
    /// The least time.
    fn min(&self) -> f64 {
        self.0.iter().copied().fold(f64::INFINITY, f64::min)
    }

    /// The time in the middle.
    fn median(&self) -> f64 {
        let mut times = self.0.clone();
        times.sort_by(f64::total_cmp);
        times[times.len() / 2]
    }

    /// Times so many verdicts once more.
    fn add<T>(&mut self, verdicts: u32, judge: impl Fn() -> T) {
        let start = Instant::now();
        for _ in 0..verdicts {
            black_box(judge());
        }
        let time = start.elapsed().as_secs_f64() / f64::from(verdicts);
        self.0.push(time * 1e6);
    }
}

fn main() {
    println!("microseconds per verdict, {ROUNDS} rounds of each checker in turn\n");
    compare("typical", &typical(), 1000);
    compare("largest", &largest(), 20);
    compare("literals", &literals(), 20);
    compare_joining("typical", &typical(), 1000);
    compare_joining("largest", &versions(VERSIONS / 2), 20);
    println!("microseconds for the bounds of all versions, the verdict among them\n");
    compare_bounds("chain", &chain(), 20);
    compare_bounds("crowd", &crowd(), 20);
    compare_bounds("calls", &calls(), 20);
    compare_bounds("largest", &largest(), 20);
    println!("microseconds for a mend, the verdict among them\n");
    compare_mend("script of 1 KB, mended", &wrong(2, &[9]), 20, true);
    compare_mend("script of 1 KB, not mended", &wrong(2, &[9, 10]), 20, true);
    compare_mend(
        "largest, mended in its last version",
        &wrong(VERSIONS, &[9]),
        5,
        false,
    );
    compare_mend("largest, not mended", &wrong(VERSIONS, &[9, 10]), 5, false);
    compare_mend("8 in the last of 64 versions", &misfit(), 5, false);
    compare_mend("9 in the last of 64 versions", &uncovered(), 5, false);
    for long in [Long::Calls, Long::Dispatches, Long::Skips] {
        for owned in [true, false] {
            let sort = if owned { "owned" } else { "shared" };
            let name = format!("10, {long:?}, {sort}");
            compare_mend(&name, &unassigned(long, owned), 1, false);
        }
    }
}

/// Versions of 512 bytes, with these registers of the last one vectors in place of integers.
fn wrong(count: usize, registers: &[usize]) -> Vec<u8> {
    let mut image = versions(count);
    let last = 512 * (count - 1);
    for register in registers {
        image[last + 10 + register] = 3;
    }
    image
}

/// Times the verdict on a refused image and its mend, so many in a round, and the plain
/// search of the reference once, where that is asked for.
fn compare_mend(name: &str, image: &[u8], times: u32, plainly: bool) {
    let found = engine::mend(image);
    let what = match found {
        Mended::Byte {
            refusal,
            offset,
            value,
        } => {
            format!(
                "refused by {}, mended by {value} at {offset}",
                refusal.number
            )
        }
        Mended::Unmended(no) => format!("refused by {}, not mended", no.number),
        other => panic!("{name}: {other:?}"),
    };
    println!("{name}: {} bytes, {what}", image.len());
    let [mut verdict, mut mended, mut plain] = [const { Times(Vec::new()) }; 3];
    for _ in 0..ROUNDS {
        verdict.add(times, || library::verdict(black_box(image)));
        mended.add(times, || library::mend(black_box(image)));
    }
    print_line("verdict", verdict.min(), verdict.median());
    print_line("mend", mended.min(), mended.median());
    if plainly {
        plain.add(1, || assert_eq!(mend(black_box(image)), found));
        print_line("reference", plain.min(), plain.median());
    }
    println!();
}

/// Times the verdict on an accepted image and the bounds of its versions, so many in a
/// round.
fn compare_bounds(name: &str, image: &[u8], rounds: u32) {
    let rows = bounds_of(image).expect("an accepted image");
    assert_eq!(engine::bounds(image).as_ref(), Ok(&rows), "{name}");
    let program = Program::accept(image).expect("an accepted image");
    let blocks = program.versions.iter().flat_map(|version| &version.blocks);
    let lines = blocks.flat_map(|block| &block.instructions);
    let calls = lines.filter(|placed| program.signature(&placed.item).is_some());
    let none = rows.iter().filter(|row| row.bound == Bound::None).count();
    println!(
        "{name}: {} bytes, {} versions, {none} of them without a bound, {} calls",
        image.len(),
        rows.len(),
        calls.count()
    );
    let [mut verdict, mut bounds] = [const { Times(Vec::new()) }; 2];
    for _ in 0..ROUNDS {
        verdict.add(rounds, || library::verdict(black_box(image)));
        bounds.add(rounds, || library::bounds(black_box(image)));
    }
    print_line("verdict", verdict.min(), verdict.median());
    print_line("bounds", bounds.min(), bounds.median());
    let ratio = |time: fn(&Times) -> f64| time(&bounds) / time(&verdict);
    print_line("bounds/verdict", ratio(Times::min), ratio(Times::median));
    println!();
}

/// The version of an index, four of each function.
fn numbers(index: usize) -> String {
    format!("{}.{}", index / 4, index % 4)
}

/// 64 versions of plain instructions, each calling the next one, which is listed before
/// it, at its end.
fn chain() -> Vec<u8> {
    let version = |index: usize| {
        let plain = "r0 = lit -7\n".repeat(36);
        let call = match index {
            63 => String::new(),
            _ => format!("r0 = call {}()\n", numbers(index + 1)),
        };
        let head = format!("version {}() -> int\nregisters r0: int\n", numbers(index));
        format!("{head}block 0 quiet -> r0\n{plain}{call}")
    };
    image(&(0..64).map(version).collect::<String>())
}

/// 64 versions of 8 parameters, four of each function, with 17 DISPATCHes each that reach
/// all four of the next function, which are listed before.
fn crowd() -> Vec<u8> {
    let version = |index: usize| {
        let parameters = (0..8).map(|register| format!("r{register}: int"));
        let parameters = parameters.collect::<Vec<_>>().join(", ");
        let head = format!("version {}({parameters}) -> int\n", numbers(index));
        let lines = match index / 4 {
            15 => "r0 = add r0, r1\n".repeat(48),
            function => {
                let line = format!(
                    "r0 = dispatch {}({parameters}) -> int quiet\n",
                    function + 1
                );
                line.repeat(17)
            }
        };
        format!("{head}block 0 quiet -> r0\n{lines}")
    };
    image(&(0..64).map(version).collect::<String>())
}

/// About as many CALLs as an image has room for, in all blocks of 11 versions, each of one
/// of those behind it, and a version without a call.
fn calls() -> Vec<u8> {
    let mut text: String = (0..LAST).map(calling).collect();
    text += &format!("version {}() -> int\nregisters r0: int\n", numbers(LAST));
    text += "block 0 quiet -> r0\nr0 = lit 1\n";
    image(&text)
}

/// The index of the version that calls none.
const LAST: usize = 11;

/// A version of 8 blocks full of CALLs of those behind it, but for the one before the
/// last, which has fewer.
fn calling(index: usize) -> String {
    let promises = (1..8).map(|register| format!("r{register}: quiet promise"));
    let promises = promises.collect::<Vec<_>>().join(", ");
    let head = format!("version {}() -> int\nregisters r0: int\n", numbers(index));
    let mut text = format!("{head}registers {promises}\n");
    for block in 0..8 {
        text += &format!("block {block} quiet -> r0\n");
        for block in (1..8).filter(|_| block == 0) {
            text += &format!("r{block} = prom {block}\n");
        }
        let count = match (index + 1, block) {
            (LAST, _) => 19,
            (_, 0) => 41,
            _ => 48,
        };
        for call in 0..count {
            let callee = index + 1 + (call + block) % (LAST - index);
            text += &format!("r0 = call {}()\n", numbers(callee));
        }
    }
    text
}

/// Times both checkers on an accepted image, so many verdicts in a round.
fn compare(name: &str, image: &[u8], verdicts: u32) {
    let Verdict::Accepted(versions) = verdict(image) else {
        panic!("the {name} image is refused: {:?}", verdict(image));
    };
    assert_eq!(differential::verdict(image), Verdict::Accepted(versions));
    let records = records(image).expect("an accepted image").len();
    let bytes = image.len();
    println!("{name} accepted image: {bytes} bytes, {records} records, {versions} versions");
    let [mut proved, mut reference, mut moved] = [const { Times(Vec::new()) }; 3];
    for _ in 0..ROUNDS {
        proved.add(verdicts, || library::verdict(black_box(image)));
        reference.add(verdicts, || verdict(black_box(image)));
        moved.add(verdicts, || narrowed(black_box(image)));
    }
    print_line("proved library", proved.min(), proved.median());
    print_line("moved", moved.min(), moved.median());
    print_line("reference", reference.min(), reference.median());
    // How many times as long the reference takes.
    let ratio = |time: fn(&Times) -> f64| time(&reference) / time(&proved);
    print_line("reference/proved", ratio(Times::min), ratio(Times::median));
    println!();
}

/// Times the joining of an image with itself, beside its two verdicts.
fn compare_joining(name: &str, image: &[u8], times: u32) {
    let [mut verdicts, mut joined] = [const { Times(Vec::new()) }; 2];
    for _ in 0..ROUNDS {
        verdicts.add(times, || {
            let first = library::verdict(black_box(image));
            (first, library::verdict(black_box(image)))
        });
        joined.add(times, || together(black_box(image)));
    }
    let bytes = 2 * image.len();
    println!("{name} image joined with itself: {bytes} bytes together");
    print_line("two verdicts", verdicts.min(), verdicts.median());
    print_line("joined", joined.min(), joined.median());
    let ratio = |time: fn(&Times) -> f64| time(&joined) / time(&verdicts);
    print_line("joined/verdicts", ratio(Times::min), ratio(Times::median));
    println!();
}

/// The first byte of an image that the proved library joins with itself.
fn together(image: &[u8]) -> u8 {
    let mut out = [0; FIR_IMAGE_BYTES];
    library::join(image, image, &mut out).expect("it goes together");
    out[0]
}

/// The first byte of an image that the proved library moves to the form of 32 bits.
fn narrowed(image: &[u8]) -> u8 {
    let mut out = [0; FIR_IMAGE_BYTES];
    library::narrow(image, &mut out).expect("its literals fit");
    out[0]
}

/// A line of the table.
fn print_line(name: &str, min: f64, median: f64) {
    println!("  {name:<18}min {min:>10.2}   median {median:>10.2}");
}

/// The first generated image of the typical number of records whose literals fit 32
/// bits.
fn typical() -> Vec<u8> {
    let mut images = (0..).map(generator::accepted);
    let is_typical = |image: &Vec<u8>| {
        records(image).is_some_and(|r| r.len() == TYPICAL)
            && move_from(Form::Wide, image, image.len()).is_ok()
    };
    images.find(is_typical).expect("one of the seeds gives it")
}

/// 64 versions of 512 bytes, which together are the most bytes of an image.
fn largest() -> Vec<u8> {
    versions(VERSIONS)
}

/// So many versions of 512 bytes.
fn versions(count: usize) -> Vec<u8> {
    image(
        &(0..count)
            .map(|index| version(index, count))
            .collect::<String>(),
    )
}

/// 64 versions of 37 literals each and an operation, which together are the most bytes
/// of an image.
fn literals() -> Vec<u8> {
    let version = |index: usize| {
        let literals = "r0 = lit -7\n".repeat(37);
        let (function, version) = (index / 4, index % 4);
        let head = format!("version {function}.{version}() -> int\nregisters r0: int\n");
        format!("{head}block 0 quiet -> r0\n{literals}r0 = less r0, r0\n")
    };
    image(&(0..64).map(version).collect::<String>())
}

/// The text of a version with 12 registers and 8 blocks, each promise block
/// within the one before it, that calls 9 of so many versions.
fn version(index: usize, count: usize) -> String {
    let mut text = format!(
        "version {}.{}(r0: int) -> int
           registers r1: int, r2: quiet promise, r3: quiet promise, r4: quiet promise
           registers r5: quiet promise, r6: quiet promise, r7: quiet promise
           registers r8: quiet promise, r9: int, r10: int, r11: int\n",
        index / 4,
        index % 4
    );
    for block in 0..8 {
        writeln!(text, "block {block} quiet -> r1").expect("a string takes all");
        if block < 7 {
            let promise = block + 2;
            let next = block + 1;
            text += &format!("r{promise} = prom {next}\nr1 = force r{promise}\n");
        }
        text += "r9 = add r0, r0\nr10 = sub r9, r0\nr11 = mul r9, r10\nr1 = less r10, r11\n";
        if block == 0 {
            text += "r1 = add r1, r1\n";
        }
        for call in 0..if block == 1 { 2 } else { 1 } {
            let callee = (index * 5 + block * 11 + call * 31) % count;
            text += &format!("r1 = call {}.{}(r1)\n", callee / 4, callee % 4);
        }
    }
    text
}
