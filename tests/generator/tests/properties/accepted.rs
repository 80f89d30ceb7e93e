//! Images that are to be accepted are accepted, and use all that there is.

use generator::{accepted, accepted_of, Special, Tally, Theme, Trap};
use reference::bounds::{MAX_IMAGE, VERSIONS};
use reference::{kinds, verdict, Kind, Mark, Program, Type, Verdict};

/// Asserts that an image is accepted; its versions.
#[track_caller]
fn versions(image: &[u8], seed: u64) -> usize {
    match verdict(image) {
        Verdict::Accepted(versions) => versions,
        refused => panic!("seed {seed}: {refused:?}\n{}", text::listing(image)),
    }
}

#[test]
fn every_image_that_is_to_be_accepted_is() {
    let mut bytes = 0;
    for seed in 0..30_000 {
        let image = accepted(seed);
        versions(&image, seed);
        bytes += image.len();
    }
    println!("mean size {} bytes", bytes / 30_000);
}

#[test]
fn images_of_every_theme_are_accepted() {
    let specials = [
        Special::Endless,
        Special::Vectors,
        Special::Promises,
        Special::Ladder,
    ];
    let mut themes = vec![Theme::Small, Theme::Medium, Theme::Recursive];
    themes.extend(specials.map(Theme::Special));
    themes.extend(Trap::ALL.map(Theme::Trap));
    for theme in themes {
        for seed in 0..200 {
            versions(&accepted_of(theme, seed), seed);
        }
    }
}

#[test]
fn images_of_one_version_and_of_64() {
    for seed in 0..200 {
        assert_eq!(versions(&accepted_of(Theme::Single, seed), seed), 1);
        let many = accepted_of(Theme::Many, seed);
        assert_eq!(versions(&many, seed), VERSIONS);
    }
}

#[test]
fn images_at_the_bound_of_their_size() {
    let mut exactly = 0;
    for seed in 0..40 {
        let image = accepted_of(Theme::Large, seed);
        versions(&image, seed);
        assert!(image.len() > MAX_IMAGE - 100, "{} bytes", image.len());
        exactly += usize::from(image.len() == MAX_IMAGE);
    }
    println!("{exactly} of 40 images have exactly {MAX_IMAGE} bytes");
    assert!(exactly >= 5);
}

#[test]
fn one_seed_gives_one_image() {
    for seed in 0..100 {
        assert_eq!(generator::image(seed), generator::image(seed));
    }
    assert_ne!(accepted(1), accepted(2));
}

#[test]
fn all_instructions_types_and_marks_are_used() {
    let (mut instructions, mut types, mut marks) =
        (Tally::default(), Tally::default(), Tally::default());
    for seed in 0..2000 {
        let program = Program::accept(&accepted(seed)).expect("an accepted image");
        for version in &program.versions {
            version.head.types.iter().for_each(|ty| types.meet(*ty));
            for (number, block) in version.blocks.iter().enumerate() {
                marks.meet((number, block.head.mark));
                for placed in &block.instructions {
                    instructions.meet((number > 0, placed.item.kind()));
                }
            }
        }
    }
    println!("in promise blocks, kind\n{instructions}{types}");
    for kind in kinds::MOVE..=kinds::LIT {
        let only_in_bodies = [18, 23].contains(&kind);
        assert!(instructions.count(&(false, kind)) > 100);
        assert!(only_in_bodies == (instructions.count(&(true, kind)) == 0));
    }
    let shared = Kind::ALL.map(Type::shared);
    for ty in shared.iter().chain([&Type::OWNED, &Type::BORROWED]) {
        assert!(types.count(ty) > 100);
    }
    for number in 0..8 {
        assert!(marks.count(&(number, Mark::QUIET)) > 10);
        assert!(marks.count(&(number, Mark::REFLECTIVE)) > 10);
    }
}
