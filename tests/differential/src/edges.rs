//! Images at the edges of the rules, made by hand.

use cases::{exact, image, IDENTITY};
use generator::{accepted_of, Theme};
use reference::bounds::{MAX_IMAGE, VERSIONS_EACH};

/// An accepted image with each instruction, by kind number but for USE, and
/// with a promise block within another.
pub const EVERY_INSTRUCTION: &str = "
    version 0.0(r0: own vector, r1: int, r2: value) -> own vector
      registers r3: own vector, r4: vector, r5: int, r6: quiet promise
      registers r7: reflective promise, r8: any, r9: own vector
      block 0 reflective -> r9
        r5 = lit 2
        r8 = move r2
        r4 = dup r0
        r3 = vec [r1, r5]
        r5 = len r0
        r5 = get r4[r1]
        set r3[r1] = r5
        r5 = sub r5, r1
        r5 = select r1 ? r5 : r1
        r2 = cast r8
        r8 = named x3
        store x3 = r2
        r6 = prom 1
        r7 = prom 2
        r5 = force r7
        r2 = peek r6.x3
        poke r7.x7 = r4
        r5 = call 0.1(r3, r1)
        r5 = dispatch 0(r3: borrow vector, r5: int) -> int quiet
        skip 1 unless r5
        r8 = use r3
        r9 = call 1.0(r0)
      block 1 quiet -> r5
        r5 = add r1, r5
      block 2 reflective -> r1
        r6 = prom 3
        r1 = force r6
        r2 = peek r6.x1
      block 3 quiet -> r1
        r1 = less r1, r5
    version 0.1(r0: borrow vector, r1: int) -> int
      block 0 quiet -> r1
        r1 = get r0[r1]
    version 1.0(r0: own vector) -> own vector
      block 0 quiet -> r0
";

/// All images at the edges, with their names.
pub fn edges() -> Vec<(String, Vec<u8>)> {
    let mut edges = plain_bytes();
    edges.extend(changed("identity", &IDENTITY, |_| (0..=255).collect()));
    edges.extend(changed(
        "every instruction",
        &image(EVERY_INSTRUCTION),
        telling_bytes,
    ));
    for count in [63, 64, 65, 66, 128, 129] {
        edges.push((format!("{count} versions"), identities(count)));
    }
    for seed in 0..20 {
        let mut image = accepted_of(Theme::Large, seed);
        edges.push((format!("large image {seed}"), image.clone()));
        image.resize(MAX_IMAGE + 1, 0);
        edges.push((format!("large image {seed} and more"), image));
    }
    let bodies = AFTER.map(|after| format!("{BODY}{after}"));
    for text in bodies.into_iter().chain(TEXTS.map(String::from)) {
        let image = image(&text);
        edges.push((text, image));
    }
    edges.extend(LEVELS.map(|text| (text.to_string(), exact(text))));
    edges
}

/// Images of one byte over and over, at the bounds of their size.
fn plain_bytes() -> Vec<(String, Vec<u8>)> {
    let sizes = [
        0,
        1,
        2,
        3,
        4,
        5,
        1000,
        MAX_IMAGE - 1,
        MAX_IMAGE,
        MAX_IMAGE + 1,
        65_536,
        100_000,
    ];
    let image = |size| move |byte| (format!("{size} bytes of {byte}"), vec![byte; size]);
    sizes
        .into_iter()
        .flat_map(|size| [0, 4, 255].map(image(size)))
        .collect()
}

/// An image, the image cut at each place, and with other bytes at each place.
fn changed(name: &str, image: &[u8], bytes: fn(u8) -> Vec<u8>) -> Vec<(String, Vec<u8>)> {
    let mut changed = vec![(name.to_string(), image.to_vec())];
    for place in 0..image.len() {
        let cut = image[..place].to_vec();
        changed.push((format!("{name} cut to {place} bytes"), cut));
        for byte in bytes(image[place]) {
            let mut image = image.to_vec();
            image[place] = byte;
            changed.push((format!("{name} with {byte} at {place}"), image));
        }
    }
    changed
}

/// The bytes that rules tell apart, and those that differ in one bit.
fn telling_bytes(byte: u8) -> Vec<u8> {
    let one_bit = (0..8).map(|bit| byte ^ 1 << bit);
    (0..=50).chain(one_bit).chain([127, 255]).collect()
}

/// So many identities, four to a function.
pub fn identities(count: usize) -> Vec<u8> {
    let version = |index: usize| {
        let mut version = IDENTITY;
        version[4] = (index / VERSIONS_EACH) as u8;
        version[5] = (index % VERSIONS_EACH) as u8;
        version
    };
    (0..count).flat_map(version).collect()
}

/// An identity whose block the texts below go on with.
const BODY: &str = "version 0.0(r0: int) -> int\nblock 0 quiet -> r0\n";

/// What may follow the identity's block.
const AFTER: [&str; 7] = [
    "",
    "block 1 quiet -> r0",
    "r0 = prom 0",
    "r0 = prom 1\nr0 = prom 1\nblock 1 quiet -> r0",
    "r0 = prom 1\nblock 1 quiet -> r0\nr0 = prom 1",
    "r0 = call 0.0()\nr0 = call 1.0(r0)",
    "r0 = dispatch 1(r0: int) -> int quiet",
];

/// Levels that are missing, twice, elsewhere or unknown, and calls that go up.
const LEVELS: [&str; 8] = [
    "version 0.0(r0: int) -> int\nblock 0 quiet -> r0",
    "version 0.0(r0: int) -> int blocks=1",
    "version 0.0(r0: int) -> int\nlevel staff\nlevel staff\nblock 0 quiet -> r0",
    "version 0.0(r0: int) -> int\nblock 0 quiet -> r0\nlevel staff",
    "level staff\nversion 0.0(r0: int) -> int\nblock 0 quiet -> r0",
    "version 0.0(r0: int) -> int\nlevel 3\nblock 0 quiet -> r0",
    "version 0.0(r0: int) -> int\nlevel portal\nblock 0 quiet -> r0\nr0 = call 0.1(r0)
     version 0.1(r0: int) -> int\nlevel staff\nblock 0 quiet -> r0",
    "version 0.0(r0: int) -> int\nlevel staff\nblock 0 quiet -> r0\nr0 = call 0.1(r0)
     version 0.1(r0: int) -> int\nlevel portal\nblock 0 quiet -> r0",
];

/// Records that are stray or missing.
const TEXTS: [&str; 5] = [
    "block 0 quiet -> r0",
    "r0 = lit 0",
    "version 0.0(r0: int) -> int blocks=1",
    "version 0.0(r0: int) -> int blocks=2\nblock 0 quiet -> r0",
    "version 0.0(r0: int) -> int\nblock 0 quiet -> r0 count=1",
];
