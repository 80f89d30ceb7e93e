//! `fir pool`: eight runs that share 64 vectors, in turn by a plan.

mod house;
mod plan;
mod show;

use crate::command::Pooling;
use crate::failure::{Failure, Status};
use crate::refusal::{self, Refused};
use crate::running::answered;
use crate::source::{self, Source};
use crate::streams::Streams;
use crate::telling::{Format, Unread};
use house::House;
use library::{Number, Pool, Refusal, FIR_REFUSED_POOL, FIR_RUNS};
use plan::{Deed, Plan};
use show::Telling;

/// Runs a plan; the exit status.
pub fn all(asked: &Pooling, streams: &mut Streams) -> Result<Status, Failure> {
    let telling = Telling {
        format: match asked.json {
            true => Format::Json,
            false => Format::Lines,
        },
        stats: asked.stats,
    };
    let name = source::name(&asked.plan);
    let read = source::text_of(&asked.plan, streams)
        .and_then(|text| Plan::parse(&text, &asked.plan, &name));
    let plan = match read {
        Ok(plan) => plan,
        Err(failure) => return telling.format.failed(Unread { name, failure }, streams),
    };
    match sources(&plan, streams) {
        Ok(sources) => run(&name, &plan, &sources, telling, streams),
        Err(unread) => telling.format.failed(unread, streams),
    }
}

/// The images of a plan, one for each deed.
fn sources(plan: &Plan, streams: &mut Streams) -> Result<Vec<Source>, Unread> {
    let read = |deed: &Deed| {
        Source::read(deed.file(), streams).map_err(|failure| Unread {
            name: source::name(deed.file()),
            failure,
        })
    };
    plan.deeds.iter().map(read).collect()
}

/// Runs a plan whose images are read; the exit status.
fn run(
    name: &str,
    plan: &Plan,
    sources: &[Source],
    telling: Telling,
    streams: &mut Streams,
) -> Result<Status, Failure> {
    match made(plan) {
        Ok(pool) => House::new(pool, plan, telling).run(sources, streams),
        Err(refused) => answered(Status::No, telling.not_made(name, &refused, streams)),
    }
}

/// The pool of a plan, all of whose numbers are numbers of runs.
fn made(plan: &Plan) -> Result<Pool<'static>, Refused> {
    let mut reserves = [0; FIR_RUNS];
    for &(number, count) in &plan.reserves {
        reserves[number_of(number)?.get()] = count;
    }
    for deed in &plan.deeds {
        number_of(deed.number)?;
    }
    Pool::new(reserves).map_err(|no| refusal::of_pool(no, reserves))
}

/// A number, or 21.
fn number_of(number: usize) -> Result<Number, Refused> {
    let (question, offset) = (FIR_REFUSED_POOL, 0);
    Number::new(number).ok_or_else(|| refusal::of_number(Refusal { question, offset }, number))
}
