//! Why two accepted images are not joined: question 23, and which bound it is.

use crate::number::many;
use reference::bounds::{FUNCTIONS, MAX_IMAGE, VERSIONS};
use reference::joins::{Bound, Sizes};
use reference::Program;

/// Question 23: the bounds that two images break together.
pub fn bounds(first: &[u8], second: &[u8]) -> Option<String> {
    let sizes = |image| Some(Sizes::of(image, &Program::accept(image).ok()?));
    let together = sizes(first)?.with(sizes(second)?);
    let broken = together.broken(MAX_IMAGE).into_iter();
    let words: Vec<String> = broken.filter_map(|bound| words(together, bound)).collect();
    (!words.is_empty()).then(|| format!("together they would have {}", words.join("; ")))
}

/// How much there would be, and how much there may be; none for the buffer, which has as
/// many places as an image may have bytes.
fn words(together: Sizes, bound: Bound) -> Option<String> {
    let (has, most) = match bound {
        Bound::Bytes => (many(together.bytes, "byte"), MAX_IMAGE),
        Bound::Functions => (many(together.functions, "function"), FUNCTIONS),
        Bound::Versions => (many(together.versions, "version"), VERSIONS),
        Bound::Buffer => return None,
    };
    Some(format!("{has}, and {most} are the most"))
}

#[cfg(test)]
mod tests {
    use super::*;

    #[test]
    fn each_bound_has_its_words() {
        let together = Sizes {
            bytes: 32_769,
            functions: 33,
            versions: 65,
        };
        for (bound, expected) in [
            (Bound::Bytes, Some("32769 bytes, and 32768 are the most")),
            (Bound::Functions, Some("33 functions, and 32 are the most")),
            (Bound::Versions, Some("65 versions, and 64 are the most")),
            (Bound::Buffer, None),
        ] {
            assert_eq!(words(together, bound).as_deref(), expected);
        }
    }
}
