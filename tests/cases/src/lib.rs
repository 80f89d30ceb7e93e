//! The images that the paper names, and the image of a text, for tests.

/// The image of a text that is known to be well formed. A version that states no
/// level is for the portal, so that a text need not speak of levels.
#[track_caller]
pub fn image(text: &str) -> Vec<u8> {
    exact(&leveled(text))
}

/// The image of a text that is known to be well formed, as it stands.
#[track_caller]
pub fn exact(text: &str) -> Vec<u8> {
    text::assemble(text).unwrap_or_else(|error| panic!("{error}\n{text}"))
}

/// The text with a level, that of the portal, for each version that states none.
pub fn leveled(text: &str) -> String {
    let mut leveled = String::new();
    let mut due = false;
    for line in text.lines() {
        let word = line.split_whitespace().next().unwrap_or_default();
        let passes = word.is_empty() || word.starts_with('#') || word == "registers";
        if due && !passes && word != "level" {
            leveled += "  level portal\n";
        }
        due = word == "version" || (due && passes);
        leveled += line;
        leveled.push('\n');
    }
    if due {
        leveled += "  level portal\n";
    }
    leveled
}

/// The image I of the paper, at level 0.
pub const IDENTITY: [u8; 23] = [
    0x0B, 0x00, 0x01, 0x00, 0x00, 0x00, 0x01, 0x01, 0x02, 0x01, 0x02, 0x05, 0x00, 0x03, 0x00, 0x00,
    0x07, 0x00, 0x02, 0x00, 0x00, 0x00, 0x00,
];

/// P6: a result register that is assigned, r0, or not, r1.
pub fn resulting(register: &str) -> String {
    format!(
        "version 0.0(r0: int) -> int
           registers r1: int
           block 0 quiet -> {register}"
    )
}

/// P7 and P8: DUP of a shared vector, SET of its place 0 to 42, returned owned.
pub const DUP_AND_SET: &str = "
    version 0.0(r0: vector) -> own vector
      registers r1: own vector, r2: int, r3: int
      block 0 quiet -> r1
        r1 = dup r0
        r2 = lit 0
        r3 = lit 42
        set r1[r2] = r3
";

/// P9: the same with SET on the shared vector, which is returned.
pub const SET_ON_SHARED: &str = "
    version 0.0(r0: vector) -> vector
      registers r1: own vector, r2: int, r3: int
      block 0 quiet -> r0
        r1 = dup r0
        r2 = lit 0
        r3 = lit 42
        set r0[r2] = r3
";

/// P10: a division.
pub const DIVISION: &str = "
    version 0.0(r0: int, r1: int) -> int
      block 0 quiet -> r0
        r0 = div r0, r1
";

/// P11: a body that calls itself.
pub const CALLS_ITSELF: &str = "
    version 0.0(r0: int) -> int
      block 0 quiet -> r0
        r0 = call 0.0(r0)
";

/// A mistake to rule out: one owned register, r0 or r1, given as borrowed and as
/// owned in one call.
pub fn calling_with(arguments: &str) -> String {
    format!(
        "version 0.0(r0: own vector, r1: own vector, r2: int) -> int
           block 0 quiet -> r2
             r2 = call 1.0({arguments})
         version 1.0(r0: borrow vector, r1: own vector) -> int
           registers r2: int
           block 0 quiet -> r2
             r2 = len r0"
    )
}

/// A mistake to rule out: r0 emptied, by this instruction, after a promise
/// captured it; the promise captures this register.
pub fn emptying_after(captured: &str, emptying: &str) -> String {
    format!(
        "version 0.0(r0: own vector, r1: own vector) -> own vector
           registers r2: own vector, r3: quiet promise, r4: int
           block 0 quiet -> r2
             r3 = prom 1
             r2 = {emptying}
           block 1 quiet -> r4
             r4 = len {captured}"
    )
}

/// A mistake to rule out: kind 0, `any`, returned.
pub fn returning(kind: &str) -> String {
    format!(
        "version 0.0(r0: {kind}) -> {kind}
           block 0 quiet -> r0"
    )
}

/// SKIP: 5 and then 6 in r1, the second of which is skipped where r0 is 0.
pub const SKIPS_ONE: &str = "
    version 0.0(r0: int) -> int
      registers r1: int
      block 0 quiet -> r1
        r1 = lit 5
        skip 1 unless r0
        r1 = lit 6
";

/// SKIP of no instruction.
pub const SKIPS_NONE: &str = "
    version 0.0(r0: int) -> int
      block 0 quiet -> r0
        skip 0 unless r0
";

/// SKIP in a part: r2 is 1, and 2 where r0 is not 0, and 3 where r1 is not 0
/// either. Both parts end with the block.
pub const SKIPS_NESTED: &str = "
    version 0.0(r0: int, r1: int) -> int
      registers r2: int
      block 0 quiet -> r2
        r2 = lit 1
        skip 3 unless r0
        r2 = lit 2
        skip 1 unless r1
        r2 = lit 3
";

/// The same with an inner SKIP of so many instructions.
pub fn skipping_inside(n: u8) -> String {
    SKIPS_NESTED.replace("skip 1", &format!("skip {n}"))
}

/// SKIP over the only assignment of the result register, or not the only one.
pub fn assigned_on_one_way(first: &str) -> String {
    format!(
        "version 0.0(r0: int) -> int
           registers r1: int
           block 0 quiet -> r1
             {first}
             skip 1 unless r0
             r1 = lit 6"
    )
}

/// SKIP over the emptying of r0; this register is read behind it.
pub fn emptied_on_one_way(read: &str) -> String {
    format!(
        "version 0.0(r0: own vector, r1: int, r2: own vector) -> int
           registers r3: own vector
           block 0 quiet -> r1
             skip 1 unless r1
             r3 = use r0
             r1 = len {read}"
    )
}

/// A register that is filled again by the instruction that empties it: USE.
pub const USE_INTO_ITSELF: &str = "
    version 0.0(r0: own vector) -> own vector
      block 0 quiet -> r0
        r0 = use r0
";

/// The same by a call.
pub const CALL_INTO_ITSELF: &str = "
    version 0.0(r0: own vector) -> own vector
      block 0 quiet -> r0
        r0 = call 1.0(r0)
    version 1.0(r0: own vector) -> own vector
      block 0 quiet -> r0
";

/// A body over r0, which is an owned vector, r1, an integer, and r2 and r3,
/// which nothing assigned; block 1 reads r0.
pub fn filling(instructions: &str) -> String {
    format!(
        "version 0.0(r0: own vector, r1: int) -> int
           registers r2: own vector, r3: quiet promise
           block 0 quiet -> r1
             {instructions}
           block 1 quiet -> r1
             r1 = len r0"
    )
}

/// For changes of the image: 0.0, at 0 to 41, calls 1.0 twice, which adds a number
/// to its argument. After 0 steps, 4 and 8 no call of 1.0 is live.
pub fn adding(number: i64) -> String {
    format!(
        "version 0.0(r0: int) -> int
  level portal
  block 0 quiet -> r0
    r0 = call 1.0(r0)
    r0 = call 1.0(r0)
version 1.0(r0: int) -> int
  registers r1: int
  level portal
  block 0 quiet -> r0
    r1 = lit {number}
    r0 = add r0, r1
"
    )
}

/// Sixty-four bits: what an operation gives of the two parameters.
pub fn computing(op: &str) -> String {
    format!(
        "version 0.0(r0: int, r1: int) -> int
           registers r2: int
           block 0 quiet -> r2
             r2 = {op} r0, r1"
    )
}

/// Sixty-four bits: a body that gives what a record, at 23, assigns to r0.
pub fn giving(record: &[u8]) -> Vec<u8> {
    let version = [11, 0, 1, 0, 0, 0, 0, 1, 2, 1, 2];
    let (level, block) = ([5, 0, 3, 0, 0], [7, 0, 2, 0, 0, 0, 1]);
    [&version[..], &level, &block, record].concat()
}

/// The greatest integer.
pub const GREATEST: i64 = 9_223_372_036_854_775_807;
/// The least integer.
pub const LEAST: i64 = -9_223_372_036_854_775_808;

/// Sixty-four bits: operations on two integers and what they give, none for UNDEF.
pub const COMPUTED: [(&str, i64, i64, Option<i64>); 38] = [
    // Past the ends of the range before.
    ("add", 2_147_483_647, 1, Some(2_147_483_648)),
    ("sub", -2_147_483_648, 1, Some(-2_147_483_649)),
    ("mul", 65_536, 65_536, Some(4_294_967_296)),
    ("mul", -2_147_483_648, -1, Some(2_147_483_648)),
    ("div", -2_147_483_648, -1, Some(2_147_483_648)),
    // Sums and differences at the ends.
    ("add", GREATEST - 1, 1, Some(GREATEST)),
    ("add", GREATEST, 1, None),
    ("add", LEAST + 1, -1, Some(LEAST)),
    ("add", LEAST, -1, None),
    ("add", LEAST, GREATEST, Some(-1)),
    ("add", LEAST, LEAST, None),
    ("sub", LEAST + 1, 1, Some(LEAST)),
    ("sub", LEAST, 1, None),
    ("sub", -1, LEAST, Some(GREATEST)),
    ("sub", 0, LEAST, None),
    // Products that just fit, of each sign.
    (
        "mul",
        3_037_000_499,
        3_037_000_499,
        Some(9_223_372_030_926_249_001),
    ),
    (
        "mul",
        -3_037_000_499,
        -3_037_000_499,
        Some(9_223_372_030_926_249_001),
    ),
    (
        "mul",
        3_037_000_499,
        -3_037_000_500,
        Some(-9_223_372_033_963_249_500),
    ),
    ("mul", -1_317_624_576_693_539_401, -7, Some(GREATEST)),
    ("mul", 4_294_967_296, -2_147_483_648, Some(LEAST)),
    ("mul", -4_294_967_296, 2_147_483_648, Some(LEAST)),
    // Products that just do not.
    ("mul", 3_037_000_500, 3_037_000_500, None),
    ("mul", -3_037_000_500, -3_037_000_500, None),
    ("mul", 3_037_000_500, -3_037_000_500, None),
    ("mul", 4_294_967_296, 2_147_483_648, None),
    ("mul", -4_294_967_296, -2_147_483_648, None),
    ("mul", -3, 3_074_457_345_618_258_603, None),
    // One whose low 64 bits are 0.
    ("mul", 4_294_967_296, 4_294_967_296, None),
    // The least times 1 and −1, both ways, and by them.
    ("mul", LEAST, 1, Some(LEAST)),
    ("mul", 1, LEAST, Some(LEAST)),
    ("mul", LEAST, -1, None),
    ("mul", -1, LEAST, None),
    ("div", LEAST, 1, Some(LEAST)),
    ("div", LEAST, -1, None),
    ("div", LEAST, 2, Some(-4_611_686_018_427_387_904)),
    ("div", GREATEST, -2, Some(-4_611_686_018_427_387_904)),
    ("less", LEAST, GREATEST, Some(1)),
    ("less", 4_294_967_296, 0, Some(0)),
];
