//! What searches of DISPATCH come to: by the place of the version that is called and
//! the number of versions, before and after the end of a run.

use differential::engine;
use generator::Tally;
use library::Run;
use reference::bounds::VERSIONS_EACH;
use reference::watched::Watched;
use reference::Search;

/// A state that stands at no DISPATCH.
const ELSEWHERE: &str = "search: elsewhere";

/// Searches that pass over a version which fits but for its level, and find another
/// one, or none.
const ANOTHER: &str = "search: another version fits but for its level";
const HIDDEN: &str = "search: none fits, and one would but for its level";
const FEWEST_ANOTHER: usize = 500;
const FEWEST_HIDDEN: usize = 100;

/// The fewest states before an end whose search is compared: elsewhere, for each
/// number of versions and each place of the one that is called, and where none fits.
const FEWEST_ELSEWHERE: usize = 3_000_000;
const FEWEST_EACH_PLACE: usize = 2_000;
const FEWEST_WITHOUT_FIT: usize = 60;

/// The fewest after UNDEF for each number of versions, none of which fits, and after
/// DEEP for each place of the version that is not called.
const FEWEST_AFTER_UNDEF: usize = 500;
const FEWEST_AFTER_DEEP: usize = 100;

/// The ends that leave no run at a DISPATCH.
const ENDS_ELSEWHERE: [&str; 4] = ["Integer", "Vector", "Vectors", "Promises"];

/// Asserts that both say the same of the search of a state, before the end of its run
/// or after the end of this name; what it comes to is met.
#[track_caller]
pub fn compare(
    (reference, proved): (&Watched, &Run),
    end: Option<&str>,
    origin: &str,
    met: &mut Tally<String>,
) {
    let search = reference.search();
    let expected = search.map(|search| (search.looked(), search.versions));
    let found = engine::search(proved);
    assert!(
        expected == found,
        "{origin}, step {}: expected a search of {expected:?}, the proved engine gives {found:?}\n{}",
        reference.tried(),
        text::listing(proved.image())
    );
    if reference.search_without_levels() != search {
        let fits = search.is_some_and(|search| search.first.is_some());
        met.meet(if fits { ANOTHER } else { HIDDEN }.to_string());
    }
    met.meet(match search {
        None => ELSEWHERE.to_string(),
        Some(search) => name(end, search),
    });
}

/// The name of a search.
fn name(end: Option<&str>, search: Search) -> String {
    let Search { first, versions } = search;
    let after = end.map_or(String::new(), |end| format!(" after {end}"));
    match first {
        Some(number) => format!("search{after}: version {number} of {versions} fits"),
        None => format!("search{after}: none of {versions} fits"),
    }
}

/// Asserts that each search that may be met is met often enough. After UNDEF a change
/// of the image may bring a version that fits.
#[track_caller]
pub fn assert_searches(met: &Tally<String>) {
    assert_count(met, ELSEWHERE.to_string(), FEWEST_ELSEWHERE);
    assert_count(met, ANOTHER.to_string(), FEWEST_ANOTHER);
    assert_count(met, HIDDEN.to_string(), FEWEST_HIDDEN);
    for versions in 1..=VERSIONS_EACH as u8 {
        let search = |first| Search { first, versions };
        for number in 0..versions {
            let fits = search(Some(number));
            assert_count(met, name(None, fits), FEWEST_EACH_PLACE);
            assert_count(met, name(Some("Deep"), fits), FEWEST_AFTER_DEEP);
            assert_never(met, fits);
        }
        let none = search(None);
        assert_count(met, name(None, none), FEWEST_WITHOUT_FIT);
        assert_count(met, name(Some("Undef"), none), FEWEST_AFTER_UNDEF);
        assert_never(met, none);
    }
}

/// Asserts that a search is not met after an end that leaves no run at a DISPATCH.
#[track_caller]
fn assert_never(met: &Tally<String>, search: Search) {
    for end in ENDS_ELSEWHERE {
        let name = name(Some(end), search);
        assert_eq!(met.count(&name), 0, "{name}");
    }
}

/// Asserts that a thing is met at least so often.
#[track_caller]
fn assert_count(met: &Tally<String>, thing: String, least: usize) {
    let count = met.count(&thing);
    assert!(count >= least, "{thing}: {count}, expected {least}");
}
