//! The run of decoded instructions.

use super::code::{Code, Op, Site, OPS};
use super::frames::{Cell, Frame, Frames};
use super::places::{Forcing, Free, Promise, Promises, Vector, Vectors};
use reference::bounds::{Steps, ACTIVATIONS, ITEMS, PROMISES, VECTORS};
use reference::{Answer, End, Integer, Kind, Program, State, Value};

/// What waits for the end of an activation.
#[derive(Clone, Copy)]
struct Waiting {
    /// The instruction to go on with.
    next: u32,
    /// The frame of the activation below.
    frame: u8,
    /// The register that takes the result.
    d: u8,
    /// The promise that is forced, or [`CALL`].
    forced: u8,
}

/// In place of a promise: a call opened the activation.
const CALL: u8 = u8::MAX;

/// A run.
pub struct Machine<'c> {
    code: &'c Code,
    frames: Frames,
    /// The frame of the newest activation, which a run takes.
    out: Option<Box<Frame>>,
    vectors: Vectors,
    promises: Promises,
    free_vectors: Free,
    free_promises: Free,
    waiting: [Waiting; ACTIVATIONS],
    /// How many activations live.
    depth: usize,
    /// How many calls live.
    calls: usize,
    /// The next instruction.
    next: usize,
    /// The number of the frame of the newest activation.
    frame: usize,
    ended: Option<End>,
    result: Vec<Integer>,
}

impl<'c> Machine<'c> {
    /// The run of a program's code that begins as a run of the reference does,
    /// which has taken no step.
    pub fn new(program: &Program, code: &'c Code, begun: &State) -> Machine<'c> {
        let first = &begun.frames[0];
        let entry = code.entry(program, first.function, first.version);
        let given = begun.vectors.iter().flatten().count();
        let waiting = Waiting {
            next: 0,
            frame: 0,
            d: 0,
            forced: CALL,
        };
        let (frames, mut out) = Frames::new();
        take_arguments(&mut out, begun);
        let mut machine = Machine {
            code,
            frames,
            out: Some(out),
            vectors: [Vector::EMPTY; VECTORS],
            promises: [Promise::NONE; PROMISES],
            free_vectors: Free::from(given),
            free_promises: Free::from(0),
            waiting: [waiting; ACTIVATIONS],
            depth: 1,
            calls: 1,
            next: entry.expect("the entry exists") as usize,
            frame: 0,
            ended: None,
            result: Vec::new(),
        };
        machine.take_vectors(begun);
        machine
    }

    /// Takes the vectors of a begun run over.
    fn take_vectors(&mut self, begun: &State) {
        let given = begun.vectors.iter().flatten();
        for (vector, items) in self.vectors.iter_mut().zip(given) {
            vector.length = items.len();
            vector.items[..items.len()].copy_from_slice(items);
        }
    }

    /// The items of a vector that the run is DONE with.
    pub fn result(&self) -> &[Integer] {
        &self.result
    }

    /// A budget; its answer and the steps taken under it.
    pub fn budget(&mut self, budget: Steps) -> (Answer, Steps) {
        if let Some(end) = self.ended {
            return (Answer::Ended(end), 0);
        }
        let mut left = budget;
        match self.run(&mut left) {
            None => (Answer::Steps, budget),
            Some(end) => {
                self.ended = Some(end);
                let uncounted = Steps::from(!end.counts());
                (Answer::Ended(end), budget - left - uncounted)
            }
        }
    }

    /// Runs until nothing is left of the budget, or to the end, whose step is
    /// taken off the budget.
    fn run(&mut self, left: &mut Steps) -> Option<End> {
        let code = self.code;
        let ops = &*code.ops;
        let mut out = self.out.take().expect("it is put back after each run");
        let (mut next, mut frame, mut steps) = (self.next, self.frame, *left);
        let end = loop {
            if steps == 0 {
                break None;
            }
            steps -= 1;
            let op = &ops[next % OPS];
            next += 1;
            match *op {
                Op::Lit { d, literal } => out.put_integer(d, code.literals[usize::from(literal)]),
                Op::Copy { d, a } => out.put(d, out.get(a)),
                Op::Use { d, a } => {
                    let vector = out.get(a);
                    out.empty(a);
                    out.put(d, vector);
                }
                Op::Dup { d, a } => {
                    let Some(place) = self.free_vector(&out) else {
                        break Some(End::Vectors);
                    };
                    self.vectors[place] = self.vectors[out.place(a)];
                    out.put(d, Cell::at(Kind::VECTOR.0, place));
                }
                Op::Vec { d, n, list } => {
                    let Some(place) = self.free_vector(&out) else {
                        break Some(End::Vectors);
                    };
                    let vector = &mut self.vectors[place];
                    vector.length = usize::from(n);
                    let list = &code.lists[usize::from(list)][..n.into()];
                    for (item, &register) in vector.items.iter_mut().zip(list) {
                        *item = out.integer(register);
                    }
                    out.put(d, Cell::at(Kind::VECTOR.0, place));
                }
                Op::Len { d, a } => {
                    let length = self.vectors[out.place(a)].length;
                    out.put_integer(d, length as Integer);
                }
                Op::Get { d, a, i } => {
                    let vector = &self.vectors[out.place(a)];
                    let Some(position) = vector.position(out.integer(i)) else {
                        break Some(End::Undef);
                    };
                    out.put_integer(d, vector.items[position]);
                }
                Op::Set { a, i, e } => {
                    let vector = &mut self.vectors[out.place(a)];
                    let Some(position) = vector.position(out.integer(i)) else {
                        break Some(End::Undef);
                    };
                    vector.items[position] = out.integer(e);
                }
                Op::Add { d, a, b } => {
                    let Some(sum) = out.integer(a).checked_add(out.integer(b)) else {
                        break Some(End::Undef);
                    };
                    out.put_integer(d, sum);
                }
                Op::Subtract { d, a, b } => {
                    let Some(difference) = out.integer(a).checked_sub(out.integer(b)) else {
                        break Some(End::Undef);
                    };
                    out.put_integer(d, difference);
                }
                Op::Multiply { d, a, b } => {
                    let Some(product) = out.integer(a).checked_mul(out.integer(b)) else {
                        break Some(End::Undef);
                    };
                    out.put_integer(d, product);
                }
                Op::Divide { d, a, b } => {
                    let (a, b) = (out.integer(a), out.integer(b));
                    let Some(quotient) = a.checked_div(b) else {
                        break Some(End::Undef);
                    };
                    // Toward minus infinity: one less where the signs differ and it is not exact.
                    let less = (a ^ b) < 0 && quotient * b != a;
                    out.put_integer(d, quotient - Integer::from(less));
                }
                Op::Less { d, a, b } => {
                    let less = out.integer(a) < out.integer(b);
                    out.put_integer(d, less.into());
                }
                Op::Select { d, c, a, b } => {
                    let chosen = if out.integer(c) != 0 { a } else { b };
                    out.put_integer(d, out.integer(chosen));
                }
                Op::Cast { d, a, kinds } => {
                    let value = out.get(a);
                    if kinds >> value.kind() & 1 == 0 {
                        break Some(End::Undef);
                    }
                    out.put(d, value);
                }
                Op::Named { d, x } => {
                    let value = out.get(x);
                    if value.is_empty() {
                        break Some(End::Undef);
                    }
                    out.put(d, value);
                }
                Op::Prom { d, kind, block } => {
                    if !self.add_promise(&mut out, frame, kind, (d, block)) {
                        break Some(End::Promises);
                    }
                }
                Op::Force { d, a } => {
                    let place = out.place(a);
                    let promise = self.promises[place];
                    if promise.state == Forcing::Done {
                        out.put_integer(d, promise.cache);
                    } else if promise.state == Forcing::Begun {
                        break Some(End::Undef);
                    } else if !self.wait(next, frame, d, place as u8) {
                        break Some(End::Deep);
                    } else {
                        self.promises[place].state = Forcing::Begun;
                        self.frames.turn(&mut out, &mut frame, promise.frame);
                        next = promise.block as usize;
                    }
                }
                Op::Peek { d, a, x } => {
                    let at = self.promises[out.place(a)].frame;
                    let value = match at == frame {
                        true => out.get(x),
                        false => self.frames.at(at).get(x),
                    };
                    if value.is_empty() {
                        break Some(End::Undef);
                    }
                    out.put(d, value);
                }
                Op::Poke { a, x, e } => {
                    let (at, value) = (self.promises[out.place(a)].frame, out.get(e));
                    match at == frame {
                        true => out.put(x, value),
                        false => self.frames.at(at).put(x, value),
                    }
                }
                Op::Call { d, site } => {
                    let site = &code.sites[usize::from(site)];
                    if !self.wait(next, frame, d, CALL) {
                        break Some(End::Deep);
                    }
                    next = self.enter(&mut out, &mut frame, site);
                }
                Op::Dispatch { d, first, last } => {
                    let sites = &code.sites[first.into()..last.into()];
                    let Some(site) = sites.iter().find(|site| fits(&out, site)) else {
                        break Some(End::Undef);
                    };
                    if !self.wait(next, frame, d, CALL) {
                        break Some(End::Deep);
                    }
                    next = self.enter(&mut out, &mut frame, site);
                }
                Op::Skip { a, n } => {
                    let skipped = if out.integer(a) == 0 { n } else { 0 };
                    next += usize::from(skipped);
                }
                Op::Return { result } => {
                    let value = out.get(result);
                    out.clear();
                    self.calls -= 1;
                    self.depth -= 1;
                    if self.depth == 0 {
                        break Some(self.done(value));
                    }
                    let waiting = self.waiting[self.depth % ACTIVATIONS];
                    self.frames.turn(&mut out, &mut frame, waiting.frame.into());
                    next = waiting.next as usize;
                    out.put(waiting.d, value);
                }
                Op::Forced { result } => {
                    let integer = out.integer(result);
                    self.depth -= 1;
                    let waiting = self.waiting[self.depth % ACTIVATIONS];
                    let promise = &mut self.promises[usize::from(waiting.forced) % PROMISES];
                    (promise.state, promise.cache) = (Forcing::Done, integer);
                    self.frames.turn(&mut out, &mut frame, waiting.frame.into());
                    next = waiting.next as usize;
                    out.put_integer(waiting.d, integer);
                }
            }
        };
        (self.next, self.frame, *left) = (next, frame, steps);
        self.out = Some(out);
        end
    }

    /// Notes what waits for a new activation; no if it would be the 33rd.
    #[inline(always)]
    fn wait(&mut self, next: usize, frame: usize, d: u8, forced: u8) -> bool {
        let Some(place) = self.waiting.get_mut(self.depth) else {
            return false;
        };
        *place = Waiting {
            next: next as u32,
            frame: frame as u8,
            d,
            forced,
        };
        self.depth += 1;
        true
    }

    /// Opens a frame, whose registers are empty, with the arguments of a site; where its
    /// instructions stand.
    #[inline(always)]
    fn enter(&mut self, out: &mut Box<Frame>, frame: &mut usize, site: &Site) -> usize {
        let opened = self.calls;
        let callee = self.frames.at(opened);
        for (place, &register) in (0..).zip(&site.arguments[..site.count.into()]) {
            callee.put(place, out.get(register));
            if site.emptied >> place & 1 == 1 {
                out.empty(register);
            }
        }
        self.calls += 1;
        self.frames.turn(out, frame, opened);
        site.entry as usize
    }

    /// The place of a new vector; none if 64 count.
    #[inline(always)]
    fn free_vector(&mut self, out: &Frame) -> Option<usize> {
        let (frames, calls) = (&self.frames, self.calls);
        self.free_vectors.take(|| frames.vectors(out, calls))
    }

    /// Puts a new promise of a kind, of a block, into a register; no if 64 count.
    #[inline(always)]
    fn add_promise(
        &mut self,
        out: &mut Frame,
        frame: usize,
        kind: u8,
        (d, block): (u8, u32),
    ) -> bool {
        let (frames, calls) = (&self.frames, self.calls);
        let pending = &self.waiting[1..self.depth];
        let counted = || {
            let forced = pending.iter().filter(|waiting| waiting.forced != CALL);
            let held = frames.promises(out, calls);
            forced.fold(held, |counted, waiting| counted | 1 << waiting.forced)
        };
        let Some(place) = self.free_promises.take(counted) else {
            return false;
        };
        self.promises[place] = Promise {
            frame,
            block,
            ..Promise::NONE
        };
        out.put(d, Cell::at(kind, place));
        true
    }

    /// DONE with a value.
    fn done(&mut self, value: Cell) -> End {
        if value.kind() == Kind::INTEGER.0 {
            return End::Integer(value.number());
        }
        let vector = &self.vectors[value.place()];
        self.result = vector.items().to_vec();
        End::Vector(vector.length.min(ITEMS))
    }
}

/// Puts the arguments of a begun run into its first frame.
fn take_arguments(frame: &mut Frame, begun: &State) {
    for (register, value) in (0..).zip(&begun.frames[0].registers) {
        frame.put(
            register,
            match *value {
                None => Cell::EMPTY,
                Some(Value::Integer(integer)) => Cell::integer(integer),
                Some(Value::Vector(place)) => Cell::at(Kind::VECTOR.0, place),
                Some(Value::Promise(_)) => unreachable!("no argument is a promise"),
            },
        );
    }
}

/// Do the values of the arguments match the parameters of a site's version?
#[inline(always)]
fn fits(frame: &Frame, site: &Site) -> bool {
    let checked = &site.checked[..site.checks.into()];
    checked
        .iter()
        .all(|&(register, kinds)| kinds >> frame.kind(register) & 1 == 1)
}
