//! Whole accepted programs of several sizes and aims.

use crate::draft::{Draft, DraftVersion};
use crate::fact::Fact;
use crate::grow::{grow, Trap, Wish};
use crate::padding::pad;
use crate::random::Random;
use crate::special::{special, Special};
use crate::world::{entered, family, Callable, Levels};
use reference::bounds::{BLOCKS, FUNCTIONS, MAX_IMAGE, REGISTERS, VERSIONS, VERSIONS_EACH};
use reference::program::Signature;
use reference::Level;

/// What a program is like.
#[derive(Clone, Copy, PartialEq, Eq, Debug)]
pub enum Theme {
    /// One or two versions of a few instructions.
    Tiny,
    /// One version.
    Single,
    /// A few short versions.
    Small,
    /// Some versions of some length.
    Medium,
    /// Exactly 64 versions.
    Many,
    /// As near to 32,768 bytes as can be, or exactly so many.
    Large,
    /// Versions that call their own function.
    Recursive,
    /// A special function that is called by the last one.
    Special(Special),
    /// A program that makes UNDEF by one cause.
    Trap(Trap),
}

impl Theme {
    /// Any theme, those of large images seldom.
    pub fn any(random: &mut Random) -> Theme {
        let special = random.pick(&[
            Special::Endless,
            Special::Vectors,
            Special::Promises,
            Special::Ladder,
            Special::Ladder,
        ]);
        let trap = random.pick(&Trap::ALL);
        random.weighted(&[
            (100, Theme::Single),
            (420, Theme::Small),
            (200, Theme::Medium),
            (10, Theme::Many),
            (1, Theme::Large),
            (40, Theme::Recursive),
            (120, Theme::Special(special)),
            (100, Theme::Trap(trap)),
        ])
    }

    /// How many functions, and how many versions of each, if that is fixed.
    fn families(self, random: &mut Random) -> Vec<Option<usize>> {
        match self {
            Theme::Tiny => vec![Some(1); 1 + random.below(2)],
            Theme::Single => vec![Some(1)],
            Theme::Trap(Trap::NoFit) => {
                let searched = 1 + random.below(VERSIONS_EACH);
                let mut families = vec![None; 1 + random.below(3)];
                families.insert(0, Some(searched));
                families
            }
            Theme::Small | Theme::Special(_) | Theme::Trap(_) => vec![None; 1 + random.below(4)],
            Theme::Medium | Theme::Recursive => vec![None; 2 + random.below(7)],
            Theme::Many => partition(random).into_iter().map(Some).collect(),
            Theme::Large => vec![None; 3 * FUNCTIONS / 4],
        }
    }

    /// About how many instructions each block has.
    fn length(self, random: &mut Random) -> usize {
        match self {
            Theme::Tiny => 1 + random.below(3),
            Theme::Many => 2,
            Theme::Medium => 6 + random.below(14),
            Theme::Large => 44,
            _ => 4 + random.below(14),
        }
    }
}

/// So many versions for each function that they are 64.
fn partition(random: &mut Random) -> Vec<usize> {
    let least = VERSIONS / VERSIONS_EACH;
    let functions = least + random.below(FUNCTIONS - least + 1);
    let mut counts = vec![1; functions];
    while counts.iter().sum::<usize>() < VERSIONS {
        let open = (0..functions).filter(|&f| counts[f] < VERSIONS_EACH);
        let open: Vec<usize> = open.collect();
        counts[random.pick(&open)] += 1;
    }
    counts
}

/// An accepted program of a theme.
pub fn program(random: &mut Random, theme: Theme) -> Draft {
    let mut building = Building::new(Levels::any(random));
    if let Theme::Special(kind) = theme {
        let level = building.levels.level(random, false);
        let (versions, callable) = special(random, kind, level);
        building.must_call = vec![callable.clone()];
        building.world.push(callable);
        building.functions = 1;
        building.size = versions.iter().map(DraftVersion::size).sum();
        building.draft.versions = versions;
    }
    let families = theme.families(random);
    let last = families.len() - 1;
    for (index, versions) in families.into_iter().enumerate() {
        if !building.add_function(random, theme, versions, index == last) {
            break;
        }
    }
    if theme == Theme::Large {
        pad(random, &mut building.draft);
    }
    building.draft
}

/// A program that grows by functions, each of which may call those before it.
struct Building {
    levels: Levels,
    draft: Draft,
    world: Vec<Callable>,
    functions: usize,
    /// How many bytes the draft takes.
    size: usize,
    /// What the last function is to call besides any others.
    must_call: Vec<Callable>,
}

impl Building {
    /// A program without a function.
    fn new(levels: Levels) -> Building {
        Building {
            levels,
            draft: Draft::default(),
            world: Vec::new(),
            functions: 0,
            size: 0,
            must_call: Vec::new(),
        }
    }

    /// Adds a function; not so if the image would be too large for it.
    fn add_function(
        &mut self,
        random: &mut Random,
        theme: Theme,
        versions: Option<usize>,
        last: bool,
    ) -> bool {
        let mut signatures = family(random, versions);
        if last || self.functions == 0 || random.percent(40) {
            signatures[0] = entered(signatures[0].clone());
        }
        // What searches in vain is mostly low, so that versions above it are hidden.
        let calls = last && theme != Theme::Trap(Trap::NoFit);
        let levels = signatures.iter().map(|_| self.levels.level(random, calls));
        let planned: Vec<(Signature, Level)> = signatures.iter().cloned().zip(levels).collect();
        let own = self.own(theme, &planned);
        let mut world = self.world.clone();
        world.extend(own);
        let mut grown: Vec<(DraftVersion, Callable)> = Vec::new();
        for (number, planned) in planned.into_iter().enumerate() {
            let wish = self.wish(random, theme, planned, number, last);
            let version = grow(random, &world, &wish);
            grown.push((version.draft, version.callable));
        }
        let (drafts, callables): (Vec<DraftVersion>, Vec<Callable>) = grown.into_iter().unzip();
        let size = self.size + drafts.iter().map(DraftVersion::size).sum::<usize>();
        let versions = self.draft.versions.len() + drafts.len();
        if size > MAX_IMAGE || versions > VERSIONS {
            return false;
        }
        self.size = size;
        self.draft.versions.extend(drafts);
        self.world.extend(callables);
        self.functions += 1;
        true
    }

    /// The versions of the function itself, where a theme lets it call them.
    fn own(&self, theme: Theme, planned: &[(Signature, Level)]) -> Vec<Callable> {
        if theme != Theme::Recursive {
            return vec![];
        }
        let own = planned.iter().enumerate();
        own.map(|(version, (signature, level))| Callable {
            function: self.functions as u8,
            version: version as u8,
            signature: signature.clone(),
            level: *level,
            cost: 20,
            gives: Fact::of_type(signature.returns),
        })
        .collect()
    }

    /// What the last function calls: a few versions, then what it must.
    fn to_call(&self, random: &mut Random) -> Vec<Callable> {
        let count = 1 + random.below(5);
        let any = (0..count).filter_map(|_| random.choose(&self.world));
        any.chain(self.must_call.clone()).collect()
    }

    /// What the next version is to be.
    fn wish(
        &self,
        random: &mut Random,
        theme: Theme,
        (signature, level): (Signature, Level),
        number: usize,
        last: bool,
    ) -> Wish {
        let trap = match theme {
            Theme::Trap(trap) if last && number == 0 => Some(trap),
            _ => None,
        };
        let blocks = if theme == Theme::Large {
            BLOCKS
        } else {
            1 + random.below(BLOCKS)
        };
        Wish {
            function: self.functions as u8,
            version: number as u8,
            signature,
            level,
            length: theme.length(random),
            blocks: if trap.is_some() { BLOCKS } else { blocks },
            registers: REGISTERS - random.below(5),
            cost: 1500,
            trap,
            must_call: if last { self.to_call(random) } else { vec![] },
        }
    }
}
