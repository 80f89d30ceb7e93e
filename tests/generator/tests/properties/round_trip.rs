//! Every generated image has a text that gives its bytes back.

use generator::{accepted, any, mutated};
use text::{assemble, disassemble, listing};

#[test]
fn text_of_any_image_gives_its_bytes_back() {
    for seed in 0..6000 {
        let image = any(seed);
        let text = disassemble(&image);
        assert_eq!(assemble(&text), Ok(image), "seed {seed}\n{text}");
    }
}

#[test]
fn text_of_mutated_images_gives_their_bytes_back() {
    for seed in 0..6000 {
        let image = mutated(seed);
        let text = disassemble(&image);
        assert_eq!(assemble(&text), Ok(image), "seed {seed}\n{text}");
    }
}

#[test]
fn text_of_accepted_images_needs_no_escape() {
    for seed in 0..2000 {
        let text = disassemble(&accepted(seed));
        let escapes = ["bytes", "0x", "blocks=", "count=", "parameters=", "arith"];
        assert!(escapes.iter().all(|escape| !text.contains(escape)));
    }
}

#[test]
fn listing_gives_the_bytes_back_too() {
    for seed in 0..1000 {
        let image = any(seed);
        assert_eq!(assemble(&listing(&image)), Ok(image), "seed {seed}");
    }
}
