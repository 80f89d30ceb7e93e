//! Images whose versions depend on each other in chains, loops, diamonds and crowds, and
//! images of a given bound.

mod deeds;
mod exact;

pub use exact::exact;

use crate::draft::Draft;
use crate::random::Random;
use crate::theme::{self, Theme};
use crate::{damaged, mutated};
use deeds::{Deed, Node, Web};
use reference::bounds::{FUNCTIONS, VERSIONS, VERSIONS_EACH};
use reference::program::Signature;
use reference::{Kind, Level, Mark, Type};

/// How the versions of an image depend on each other. A DISPATCH may reach more versions
/// than its shape has in mind, so that chains and diamonds may have loops too.
#[derive(Clone, Copy, PartialEq, Eq, PartialOrd, Ord, Debug)]
pub enum Shape {
    /// Each version calls the next.
    Chain,
    /// A chain whose end calls a version before it.
    Loop,
    /// Layers of versions, each calling some of the next layer.
    Diamond,
    /// Functions of several signatures, marks and levels, searched by DISPATCH.
    Crowd,
    /// A chain by CALL alone whose first version takes exactly so many steps.
    Exact(u64),
    /// An image that was grown for runs.
    Grown,
    /// An image that a question should refuse.
    Broken,
}

/// An image with its shape.
#[derive(Clone, PartialEq, Eq, Debug)]
pub struct Depending {
    /// Its shape.
    pub shape: Shape,
    /// The image.
    pub image: Vec<u8>,
}

/// The bounds at the edge of "large", and around it.
const EDGES: [u64; 7] = [
    (1 << 32) - 25,
    (1 << 32) - 2,
    (1 << 32) - 1,
    1 << 32,
    (1 << 32) + 1,
    (1 << 32) + 24,
    1 << 40,
];

/// Any shape, and an image of it.
pub fn any(random: &mut Random) -> Depending {
    let edge = random.pick(&EDGES);
    let small = 2 + random.below(5000) as u64;
    let bound = random.pick(&[edge, small]);
    let shape = random.weighted(&[
        (18, Shape::Chain),
        (14, Shape::Loop),
        (18, Shape::Diamond),
        (30, Shape::Crowd),
        (8, Shape::Exact(bound)),
        (6, Shape::Grown),
        (6, Shape::Broken),
    ]);
    let image = image(random, shape);
    Depending { shape, image }
}

/// An image of a shape.
fn image(random: &mut Random, shape: Shape) -> Vec<u8> {
    let count = match random.below(40) {
        0 => VERSIONS,
        1..=3 => 12 + random.below(20),
        _ => 1 + random.below(9),
    };
    match shape {
        Shape::Chain => chain(random, count, false).bytes(),
        Shape::Loop => chain(random, count, true).bytes(),
        Shape::Diamond => diamond(random, count).bytes(),
        Shape::Crowd => crowd(random, count).bytes(),
        Shape::Exact(bound) => exact(bound),
        Shape::Grown => {
            let theme = Theme::any(random);
            theme::program(random, theme).bytes()
        }
        Shape::Broken => match random.one_in(3) {
            true => mutated(random.number()),
            false => damaged(random.number()).bytes,
        },
    }
}

/// The numbers of so many versions, those of a function together.
fn numbers(random: &mut Random, count: usize) -> Vec<(u8, u8)> {
    let mut numbers: Vec<(u8, u8)> = vec![(0, 0)];
    while numbers.len() < count {
        let (function, version) = numbers[numbers.len() - 1];
        let left = count - numbers.len();
        let room = (FUNCTIONS - 1 - usize::from(function)) * VERSIONS_EACH;
        let full = usize::from(version) + 1 == VERSIONS_EACH;
        let next = full || (random.one_in(2) && left <= room);
        numbers.push(match next {
            true => (function + 1, 0),
            false => (function, version + 1),
        });
    }
    numbers
}

/// A signature of integers and vectors, with one owned parameter at most.
fn signature(random: &mut Random, mark: Mark) -> Signature {
    let shared = [Kind::ANY, Kind::VALUE, Kind::INTEGER, Kind::VECTOR].map(Type::shared);
    let mut parameters: Vec<Type> = (0..random.below(3)).map(|_| random.pick(&shared)).collect();
    let vector = random.pick(&[Type::OWNED, Type::BORROWED]);
    if random.one_in(4) {
        parameters.push(vector);
    }
    let returns = [Type::INTEGER, Type::VALUE, Type::VECTOR, Type::OWNED];
    Signature {
        parameters,
        returns: random.pick(&returns),
        mark,
    }
}

/// A signature that differs from another in what a search looks at, in the kinds of its
/// parameters alone, or not at all.
fn sibling(random: &mut Random, of: &Signature, mark: Mark) -> Signature {
    let mut signature = Signature { mark, ..of.clone() };
    let kinds = [Kind::VALUE, Kind::INTEGER, Kind::VECTOR].map(Type::shared);
    match random.below(6) {
        0 => signature.returns = random.pick(&[Type::INTEGER, Type::VALUE, Type::OWNED]),
        1 => signature.parameters.push(random.pick(&kinds)),
        2 => drop(signature.parameters.pop()),
        3 => {
            for parameter in signature.parameters.iter_mut() {
                if parameter.kind() == Kind::VECTOR && !parameter.is_owned() {
                    *parameter = random.pick(&[Type::VECTOR, Type::BORROWED]);
                }
            }
        }
        4 => {
            let shared = signature.parameters.iter_mut();
            for parameter in shared.filter(|parameter| parameter.is_shared()) {
                *parameter = random.pick(&kinds);
            }
        }
        _ => {}
    }
    signature
}

/// Nodes of these numbers, all of a level and a mark or of any, without deeds.
fn web(random: &mut Random, count: usize, alike: bool) -> Web {
    let (level, mark) = (random.pick(&Level::ALL), marked(random));
    let families: Vec<Signature> = (0..FUNCTIONS).map(|_| signature(random, mark)).collect();
    let numbers = numbers(random, count);
    let mut node = |(function, version): (u8, u8)| {
        let own = if alike { mark } else { marked(random) };
        Node {
            function,
            version,
            signature: sibling(random, &families[usize::from(function)], own),
            level: if alike {
                level
            } else {
                random.pick(&Level::ALL)
            },
            blocks: vec![vec![]],
        }
    };
    Web {
        nodes: numbers.into_iter().map(&mut node).collect(),
    }
}

/// Any mark.
fn marked(random: &mut Random) -> Mark {
    random.weighted(&[(2, Mark::QUIET), (1, Mark::REFLECTIVE)])
}

/// A chain in any order of numbers, closed to a loop where that is asked for.
fn chain(random: &mut Random, count: usize, closed: bool) -> Draft {
    let mut web = web(random, count, true);
    let order = random.shuffled((0..count).collect());
    for pair in order.windows(2) {
        for _ in 0..1 + random.below(3) {
            web.call(random, pair[0], pair[1]);
        }
    }
    if closed {
        let (last, back) = (order[count - 1], random.pick(&order));
        web.call(random, last, back);
    }
    web.draft(random)
}

/// Layers in any order of numbers, each version calling some of the next layer.
fn diamond(random: &mut Random, count: usize) -> Draft {
    let mut web = web(random, count, true);
    let mut order = random.shuffled((0..count).collect::<Vec<usize>>());
    let mut above: Vec<usize> = Vec::new();
    while !order.is_empty() {
        let width = (1 + random.below(3)).min(order.len());
        let layer = order.split_off(order.len() - width);
        for &from in &above {
            for &to in &layer {
                if random.percent(75) {
                    web.call(random, from, to);
                }
            }
        }
        above = layer;
    }
    web.draft(random)
}

/// Versions of any level and mark that search functions, mostly such as stand behind
/// them in an order of their own, and call some.
fn crowd(random: &mut Random, count: usize) -> Draft {
    let mut web = web(random, count, false);
    let place: Vec<usize> = random.shuffled((0..FUNCTIONS).collect());
    let place_of = |node: &Node| place[usize::from(node.function)];
    for from in 0..count {
        for _ in 0..random.below(4) {
            let to = random.below(count);
            let behind = place_of(&web.nodes[from]) < place_of(&web.nodes[to]);
            if behind || random.one_in(40) {
                match random.one_in(4) {
                    true => web.call(random, from, to),
                    false => web.search(random, from, to),
                }
            }
        }
    }
    web.draft(random)
}

impl Web {
    /// Adds a call of a version to another, by CALL or by DISPATCH, where its level and
    /// its mark allow it; in a promise block now and then.
    fn call(&mut self, random: &mut Random, from: usize, to: usize) {
        let (own, called) = (&self.nodes[from], &self.nodes[to]);
        let allowed = called.level <= own.level && called.signature.mark <= own.signature.mark;
        if !allowed || random.one_in(5) {
            return self.search(random, from, to);
        }
        self.add(random, from, Deed::Call(to));
    }

    /// Adds a DISPATCH of a version on the function of another, by that one's signature
    /// or by one like it, which nothing may fit.
    fn search(&mut self, random: &mut Random, from: usize, to: usize) {
        let (own, searched) = (&self.nodes[from], &self.nodes[to]);
        let mark = own.signature.mark.min(searched.signature.mark);
        let signature = match random.one_in(3) {
            true => sibling(random, &searched.signature, mark),
            false => Signature {
                mark,
                ..searched.signature.clone()
            },
        };
        let function = searched.function;
        self.add(
            random,
            from,
            Deed::Dispatch {
                function,
                signature,
            },
        );
    }
}
