//! A run step by step: what each step executes and what it changes.

mod cause;
mod changes;
mod spot;
mod unfit;

pub use changes::{value, Holdings};
pub use spot::{cell_name, Script, Spot};

use crate::failure::Failure;
use crate::json::Json;
use crate::place::{beginning, Position};
use crate::single::{Single, Stepped};
use crate::source::Source;
use library::{Register, Run, Search, State, FIR_UNDEF};
use reference::program::Program;
use text::Names;

/// What is done with each step that counts, and the state that it leaves.
pub type Watch<'w> = dyn FnMut(&Step, &State) -> Result<(), Failure> + 'w;

/// Takes single steps until so many are taken in all, and shows each that counts, with what
/// the text calls registers; how many are taken then.
pub fn steps(
    run: &mut impl Stepped,
    names: &Names,
    taken: u32,
    wished: u32,
    watch: &mut Watch,
) -> Result<u32, Failure> {
    let program = Program::ordered(run.seen().image()).ok();
    let mut steps = taken;
    while steps < wished {
        let mut step = Step {
            number: steps + 1,
            before: run.seen().state().clone(),
            topmost: run.seen().topmost(),
            left: Vec::new(),
            search: run.seen().search(),
            script: program.as_ref().map(|program| Script { program, names }),
        };
        let single = Single::take(run);
        if single.counts {
            steps = step.number;
            step.left = run.seen().topmost();
            watch(&step, run.seen().state())?;
        }
        if !single.goes_on {
            break;
        }
    }
    Ok(steps)
}

/// A step that was taken.
pub struct Step<'p> {
    /// Its number.
    pub number: u32,
    /// The state before it.
    pub before: State,
    /// The registers of the topmost call before it, and those behind it.
    pub topmost: Vec<Register>,
    pub left: Vec<Register>,
    /// What its search came to, if it was a DISPATCH.
    pub search: Option<Search>,
    script: Option<Script<'p>>,
}

impl<'p> Step<'p> {
    /// Where it stood.
    pub fn spot(&self) -> Option<Spot<'p>> {
        Spot::of(self.script?, &self.before)
    }

    /// What it did, or why it is UNDEF.
    pub fn did(&self, after: &State, spot: &Spot) -> String {
        looked(self.search) + &changed(&self.before, after, spot)
    }

    /// The line of the step.
    pub fn line(&self, after: &State) -> String {
        let (number, depth) = (self.number, self.before.depth);
        let Some(spot) = self.spot() else {
            return format!("{number:>6}");
        };
        let (version, block) = (spot.version_name(), spot.activation.block);
        let (text, did) = (spot.text(), self.did(after, &spot));
        format!("{number:>6} {depth:>3}  {version:<5} block {block}  {text:<36} {did}")
    }

    /// The step as an object.
    pub fn json(&self, source: &Source, after: &State) -> Json {
        let mut fields = vec![
            ("step", self.number.into()),
            ("depth", self.before.depth.into()),
        ];
        if let Some(spot) = self.spot() {
            fields.extend(Standing::of(source, &spot).json());
            fields.push(("did", self.did(after, &spot).into()));
        }
        Json::Object(fields)
    }
}

/// How many versions the search of a DISPATCH looked at; nothing for other steps.
fn looked(search: Option<Search>) -> String {
    match search {
        Some(Search { looked, versions }) => format!("looked at {looked} of {versions}, "),
        None => String::new(),
    }
}

/// What a step changed, or why it is UNDEF.
fn changed(before: &State, after: &State, spot: &Spot) -> String {
    if after.status == FIR_UNDEF {
        format!("UNDEF: {}", cause::cause(before, spot))
    } else {
        changes::changes(before, after, spot)
    }
}

/// Where a run stands.
pub struct Standing {
    offset: usize,
    position: Option<Position>,
    version: String,
    block: usize,
    text: String,
    /// Why it is UNDEF, if it is.
    cause: Option<String>,
}

impl Standing {
    /// A spot of a run of an image.
    fn of(source: &Source, spot: &Spot) -> Standing {
        let offset = spot.offset();
        Standing {
            offset,
            position: source.position(offset),
            version: spot.version_name(),
            block: spot.activation.block,
            text: spot.text(),
            cause: None,
        }
    }

    /// The line: `at 37 in 0.0, block 0: ..`, behind the place in the text if there is
    /// one.
    pub fn line(&self, source: &Source) -> String {
        let Standing { offset, block, .. } = self;
        let (version, text) = (&self.version, &self.text);
        let mut line = beginning(&source.name, self.position, "  ");
        line += &format!("at {offset} in {version}, block {block}: {text}");
        if let Some(cause) = &self.cause {
            line += &format!(": {cause}");
        }
        line
    }

    /// The same, to stand in an object.
    pub fn json(&self) -> Vec<(&'static str, Json)> {
        let mut fields = vec![("offset", Json::from(self.offset))];
        fields.extend(Json::position(self.position));
        fields.push(("version", self.version.as_str().into()));
        fields.push(("block", self.block.into()));
        fields.push(("text", self.text.as_str().into()));
        if let Some(cause) = &self.cause {
            fields.push(("cause", cause.as_str().into()));
        }
        fields
    }
}

/// Where a run stands that is not DONE, by the proved library, and why it is UNDEF if it
/// is.
pub fn standing(source: &Source, run: &Run) -> Option<Standing> {
    let position = run.position()?;
    let program = Program::ordered(&source.image).ok()?;
    let names = &source.names;
    let script = Script {
        program: &program,
        names,
    };
    let spot = Spot::of(script, run.state())?;
    let undefined = run.state().status == FIR_UNDEF;
    let cause = undefined.then(|| cause::cause(run.state(), &spot));
    Some(Standing {
        offset: position.offset,
        position: source.position(position.offset),
        version: format!("{}.{}", position.function, position.version),
        block: position.block.into(),
        text: spot.text(),
        cause,
    })
}
