//! `--stats`: what the steps of a run were, counted one by one, beside the most that it
//! can take.

use crate::bounds;
use crate::failure::Failure;
use crate::json::Json;
use crate::single::Single;
use crate::streams::Streams;
use crate::trace::Step;
use library::{Bound, Run, Search, State};

/// What was counted of a run.
#[derive(Default)]
pub struct Stats {
    /// The calls that CALL and DISPATCH opened.
    calls: u64,
    /// The steps that were a DISPATCH.
    dispatches: u64,
    /// How many versions they looked at.
    looked: u64,
    /// How many versions the functions had that they searched.
    versions: u64,
    /// The bound of the entry; none once the run has gone on under another image.
    bound: Option<Bound>,
}

impl Stats {
    /// Nothing yet of a run whose entry has this bound.
    pub fn new(bound: Option<Bound>) -> Stats {
        Stats {
            bound,
            ..Stats::default()
        }
    }

    /// Notes that the run goes on under another image.
    pub fn change(&mut self) {
        self.bound = None;
    }

    /// Counts a step that counts, and the state that it leaves.
    pub fn meet(&mut self, step: &Step, after: &State) {
        self.calls += u64::from(after.calls > step.before.calls);
        self.add(step.search);
    }

    /// Takes single steps until so many are taken in all, and counts them; how many
    /// are taken then.
    pub fn steps(&mut self, run: &mut Run, taken: u32, wished: u32) -> u32 {
        let mut steps = taken;
        while steps < wished {
            let (search, calls) = (run.search(), run.state().calls);
            let single = Single::take(run);
            if single.counts {
                steps += 1;
                self.calls += u64::from(run.state().calls > calls);
                self.add(search);
            }
            if !single.goes_on {
                break;
            }
        }
        steps
    }

    /// Adds the search of a step, if it was a DISPATCH.
    fn add(&mut self, search: Option<Search>) {
        if let Some(Search { looked, versions }) = search {
            self.dispatches += 1;
            self.looked += looked as u64;
            self.versions += versions as u64;
        }
    }

    /// Prints what was counted of so many steps.
    pub fn tell(&self, steps: u32, streams: &mut Streams) -> Result<(), Failure> {
        let Stats {
            calls,
            dispatches,
            looked,
            versions,
            bound,
        } = self;
        let most = match bound {
            None => String::new(),
            Some(Bound::Steps(most)) => format!(" of at most {most}"),
            Some(Bound::Large) => ", the bound is large".to_string(),
            Some(Bound::None) => ", no bound is given".to_string(),
        };
        streams.line(&format!("  steps: {steps}{most}"))?;
        streams.line(&format!("  calls: {calls}"))?;
        streams.line(&format!(
            "  DISPATCH steps: {dispatches}, looked at {looked} of {versions} versions"
        ))
    }

    /// What was counted of so many steps, as an object.
    pub fn json(&self, steps: u32) -> Json {
        Json::Object(vec![
            ("steps", steps.into()),
            ("bound", self.bound.map(bounds::json).into()),
            ("calls", self.calls.into()),
            ("dispatches", self.dispatches.into()),
            ("looked_at", self.looked.into()),
            ("of_versions", self.versions.into()),
        ])
    }
}
