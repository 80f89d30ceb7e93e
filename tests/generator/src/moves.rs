//! Images of both forms that are to be moved, with a buffer for each: literals at
//! the ends of 32 bits, results of 32,768 bytes and of more, and no literal at all.

use crate::draft::{Draft, DraftBlock, DraftVersion};
use crate::padding::pad_to;
use crate::random::Random;
use crate::theme::{self, Theme};
use crate::{before, damaged, mutated};
use reference::bounds::{INSTRUCTIONS, LISTED, MAX_IMAGE, PARAMETERS, VERSIONS};
use reference::record::HEAD;
use reference::{moved, Form, Instruction, Integer, Level, Mark, Range, Type};

/// An image that is to be moved.
#[derive(Clone, PartialEq, Eq, Debug)]
pub struct Move {
    /// The form that it is moved from.
    pub form: Form,
    /// The image.
    pub image: Vec<u8>,
    /// How many places the lent buffer has.
    pub places: usize,
}

/// An image of either form, with a buffer.
pub fn any(random: &mut Random) -> Move {
    let form = random.pick(&[Form::Narrow, Form::Wide]);
    let image = match random.below(1000) {
        0..=39 => broken(random, form),
        40..=99 => in_form(form, &plain(random)),
        100..=105 => at_the_bound(random, form),
        106..=107 => in_form(form, &full_without_literals(random)),
        108..=299 => at_the_ends(random, form),
        _ => fitting(form, &program(random)),
    };
    let length = moved(form, &image).map_or(image.len(), |moved| moved.len());
    let places = places(random, length);
    Move {
        form,
        image,
        places,
    }
}

/// How many places the buffer has for a result of this length.
fn places(random: &mut Random, length: usize) -> usize {
    let more = length + 1 + random.below(40);
    let fewer = random.below(length + 1);
    let short = length.saturating_sub(1);
    random.weighted(&[
        (40, length),
        (40, more),
        (10, MAX_IMAGE),
        (4, short),
        (2, fewer),
        (1, 0),
    ])
}

/// An accepted program.
fn program(random: &mut Random) -> Draft {
    let theme = Theme::any(random);
    theme::program(random, theme)
}

/// The bytes of a draft in a form; in that of 32 bits each literal fits.
fn in_form(form: Form, draft: &Draft) -> Vec<u8> {
    match form {
        Form::Narrow => before::bytes(draft),
        Form::Wide => draft.bytes(),
    }
}

/// The same, where in either form each literal fits 32 bits.
fn fitting(form: Form, draft: &Draft) -> Vec<u8> {
    let narrow = before::bytes(draft);
    match form {
        Form::Narrow => narrow,
        Form::Wide => moved(Form::Narrow, &narrow).expect("records"),
    }
}

/// An image that a question of its form should refuse: damaged, mutated, or of the
/// other form.
fn broken(random: &mut Random, form: Form) -> Vec<u8> {
    let seed = random.number();
    let image = match random.below(4) {
        0 => return fitting(form.other(), &program(random)),
        1 => mutated(seed),
        _ => damaged(seed).bytes,
    };
    match form {
        Form::Narrow => moved(Form::Wide, &image).unwrap_or(image),
        Form::Wide => image,
    }
}

/// An accepted image some of whose literals stand at the ends of 32 bits; in the
/// form of 64 bits one in two has some that do not fit.
fn at_the_ends(random: &mut Random, form: Form) -> Vec<u8> {
    let mut draft = program(random);
    let sites = draft.sites(|instruction| matches!(instruction, Instruction::Lit { .. }));
    let unfit = random.one_in(2);
    for site in sites {
        let new = match random.below(4) {
            0 if unfit => beyond(random),
            _ => within(random),
        };
        if let Instruction::Lit { value, .. } = draft.at(site) {
            *value = new;
        }
    }
    in_form(form, &draft)
}

/// An integer of 32 bits, mostly at an end or where a byte of it is.
fn within(random: &mut Random) -> Integer {
    let Range { least, greatest } = Range::NARROW;
    let chance = random.between(least, greatest);
    let byte = 1 << random.pick(&[7, 8, 15, 16, 23, 24]);
    random.pick(&[
        least,
        least + 1,
        greatest,
        greatest - 1,
        -1,
        0,
        byte,
        -byte,
        chance,
    ])
}

/// An integer that does not fit 32 bits: the first past an end, one that does by its
/// low 32 bits, or one with a single wrong bit above them.
fn beyond(random: &mut Random) -> Integer {
    let Range { least, greatest } = Range::NARROW;
    let flipped = within(random) ^ (1 << random.between(32, 63));
    random.pick(&[
        least - 1,
        greatest + 1,
        1 << 32,
        (1 << 32) - 1,
        Integer::MIN,
        Integer::MAX,
        flipped,
        flipped,
    ])
}

/// An accepted image that has exactly 32,768 bytes in the form of 64 bits, or in that
/// of 32 bits has one more there, or some more.
fn at_the_bound(random: &mut Random, form: Form) -> Vec<u8> {
    let some = random.below(5000);
    let more = match form {
        Form::Narrow => random.pick(&[0, 0, 1, 1, some]),
        Form::Wide => 0,
    };
    let mut draft = if random.one_in(2) {
        theme::program(random, Theme::Small)
    } else {
        Draft::default()
    };
    pad_to(&mut draft, MAX_IMAGE + more);
    in_form(form, &draft)
}

/// Some versions without a literal.
fn plain(random: &mut Random) -> Draft {
    let mut draft = Draft::default();
    for _ in 0..1 + random.below(4) {
        let vectors = (0..random.below(6)).map(|_| random.below(LISTED + 1));
        let vectors = vectors.collect();
        let more = random.below(PARAMETERS);
        add_plain(&mut draft, vectors, more);
    }
    draft
}

/// The bytes of a version without a literal, instructions or further registers.
const PLAIN: usize = (HEAD + 8) + (HEAD + 1) + (HEAD + 3);

/// The fewest and the most bytes of a VEC.
const VEC: usize = HEAD + 2;
const LONGEST_VEC: usize = VEC + LISTED;

/// Versions without a literal of exactly 32,768 bytes, or nearly so many.
fn full_without_literals(random: &mut Random) -> Draft {
    let mut draft = Draft::default();
    let mut missing = MAX_IMAGE - random.pick(&[0, 0, 0, 1, 7]);
    while missing >= PLAIN && draft.versions.len() < VERSIONS {
        let most = PLAIN + INSTRUCTIONS * LONGEST_VEC;
        let size = if missing <= most {
            missing
        } else {
            most.min(missing - PLAIN)
        };
        let (mut vectors, mut left) = (Vec::new(), size - PLAIN);
        while left >= VEC && vectors.len() < INSTRUCTIONS {
            let items = (left - VEC).min(LISTED);
            vectors.push(items);
            left -= VEC + items;
        }
        add_plain(&mut draft, vectors, left);
        missing -= size;
    }
    draft
}

/// Adds a version that takes an integer, makes vectors of these lengths of it and
/// gives it back, with so many registers more.
fn add_plain(draft: &mut Draft, vectors: Vec<usize>, more: usize) {
    let (function, version) = draft.next_numbers();
    let vector = |length| Instruction::Vec {
        d: 1,
        items: vec![0; length],
    };
    let mut types = vec![Type::INTEGER, Type::VECTOR];
    types.extend(vec![Type::INTEGER; more]);
    draft.versions.push(DraftVersion {
        function,
        version,
        parameters: 1,
        returns: Type::INTEGER,
        types,
        level: Level(version % Level::ALL.len() as u8),
        blocks: vec![DraftBlock {
            mark: Mark::QUIET,
            result: 0,
            instructions: vectors.into_iter().map(vector).collect(),
        }],
    });
}
