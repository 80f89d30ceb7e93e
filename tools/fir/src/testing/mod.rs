//! `fir test`: the tests that stand in the comments of scripts, each run by the proved library.

mod line;
mod trial;

use crate::command::Testing;
use crate::failure::{Failure, Status, Wrong};
use crate::json::Json;
use crate::place::Position;
use crate::running::answered;
use crate::source::{self, Source};
use crate::streams::Streams;
use line::{Malformed, Test};
use std::ffi::OsStr;
use trial::Came;

/// How many tests came to what.
#[derive(Default)]
struct Count {
    passed: usize,
    failed: usize,
    malformed: usize,
    /// Those that the filter leaves out.
    left_out: usize,
    /// The files that have no image, or no text.
    untried: usize,
}

impl Count {
    /// The line at the end: `12 passed, 1 failed`.
    fn line(&self) -> String {
        let mut line = format!("{} passed, {} failed", self.passed, self.failed);
        let files = if self.untried == 1 { "file" } else { "files" };
        let further = [
            (self.malformed, "malformed".to_string()),
            (self.untried, format!("{files} not tried")),
            (self.left_out, "left out".to_string()),
        ];
        for (count, words) in further.iter().filter(|(count, _)| *count > 0) {
            line += &format!(", {count} {words}");
        }
        line
    }

    /// The same as an object.
    fn json(&self) -> Json {
        Json::Object(vec![
            ("result", "summary".into()),
            ("passed", self.passed.into()),
            ("failed", self.failed.into()),
            ("malformed", self.malformed.into()),
            ("files_not_tried", self.untried.into()),
            ("left_out", self.left_out.into()),
        ])
    }

    /// The exit status, where files had this one: no test at all is no pass.
    fn status(&self, files: Status) -> Status {
        let right = self.passed > 0 && self.failed + self.malformed == 0;
        files.worse(if right { Status::Yes } else { Status::No })
    }
}

/// Tries the tests of all scripts that are asked for; the exit status.
pub fn all(asked: &Testing, streams: &mut Streams) -> Result<Status, Failure> {
    let mut session = Session {
        asked,
        count: Count::default(),
        status: Status::Yes,
    };
    for file in &asked.files {
        let tried = match Source::read(file, streams) {
            Ok(source) => session.script(file, &source, streams),
            Err(failure) => session.unread(file, &failure, streams),
        };
        answered(Status::Yes, tried)?;
    }
    let Session { count, status, .. } = session;
    let last = match asked.json {
        true => count.json().to_string(),
        false => count.line(),
    };
    answered(count.status(status), streams.line(&last))
}

/// The tests of scripts, one after another.
struct Session<'a> {
    asked: &'a Testing,
    count: Count,
    /// The worst exit status of a file that could not be read.
    status: Status,
}

impl Session<'_> {
    /// Tries the tests of a script.
    fn script(
        &mut self,
        file: &OsStr,
        source: &Source,
        streams: &mut Streams,
    ) -> Result<(), Failure> {
        let tests = line::tests(source.text.as_deref().unwrap_or_default());
        if tests.is_empty() {
            return self.without(source, streams);
        }
        for (line, test) in tests {
            let filter = self.asked.filter.as_deref();
            match test {
                Err(malformed) => self.malformed(source, &malformed, streams)?,
                Ok(_) if filter.is_some_and(|filter| !line.contains(filter)) => {
                    self.count.left_out += 1;
                }
                Ok(test) => match trial::tried(source, file, &test.asked, streams) {
                    Ok(came) => self.came(source, &test, &came, streams)?,
                    Err(failure) => self.not_run(source, &test, &failure, streams)?,
                },
            }
        }
        Ok(())
    }

    /// Prints that a script has no tests.
    fn without(&mut self, source: &Source, streams: &mut Streams) -> Result<(), Failure> {
        let why = match source.text {
            Some(_) => "no tests, which are comments such as `# test 0.0 7: DONE 8`",
            None => "no tests, which stand in the comments of a text",
        };
        match self.asked.json {
            true => self.object(source, None, "none", vec![("words", why.into())], streams),
            false => streams.line(&format!("{}: {why}", source.name)),
        }
    }

    /// Counts what came of a test, and prints it where it is not what is expected.
    fn came(
        &mut self,
        source: &Source,
        test: &Test,
        came: &Came,
        streams: &mut Streams,
    ) -> Result<(), Failure> {
        let expected = test.expected.is(&came.end, came.number, came.steps);
        let passed = expected && came.is_whole;
        match passed {
            true => self.count.passed += 1,
            false => self.count.failed += 1,
        }
        if self.asked.json {
            let result = if passed { "passed" } else { "failed" };
            let mut fields = test_json(test);
            fields.push(("came", came.to_string().into()));
            fields.extend(came.why.as_deref().map(|why| ("words", why.into())));
            let details = came.details.iter().map(String::as_str);
            fields.push(("details", details.collect()));
            return self.object(source, Some(test.position), result, fields, streams);
        }
        if passed {
            return Ok(());
        }
        let why = came.why.iter().map(|why| format!(": {why}"));
        let came_to = format!("{came}{}", why.collect::<String>());
        streams.line(&failed(source, test, &came_to))?;
        came.details.iter().try_for_each(|line| streams.line(line))
    }

    /// Counts a test that names an image which cannot be had, and prints why.
    fn not_run(
        &mut self,
        source: &Source,
        test: &Test,
        failure: &Failure,
        streams: &mut Streams,
    ) -> Result<(), Failure> {
        self.count.failed += 1;
        self.status = self.status.worse(failure.status());
        if self.asked.json {
            let fields = [test_json(test), failure.json()].concat();
            return self.object(source, Some(test.position), "failed", fields, streams);
        }
        streams.line(&failed(source, test, "no run"))?;
        failure.line().map_or(Ok(()), |line| streams.line(&line))
    }

    /// Counts a test that is not in form, and prints what is wrong.
    fn malformed(
        &mut self,
        source: &Source,
        malformed: &Malformed,
        streams: &mut Streams,
    ) -> Result<(), Failure> {
        self.count.malformed += 1;
        let Malformed { position, reason } = malformed;
        if self.asked.json {
            let fields = vec![("words", reason.as_str().into())];
            return self.object(source, Some(*position), "malformed", fields, streams);
        }
        let wrong = Failure::Text(Wrong {
            name: source.name.clone(),
            position: *position,
            reason: reason.clone(),
        });
        wrong.tell(streams);
        Ok(())
    }

    /// Counts a file that has no image, and prints why.
    fn unread(
        &mut self,
        file: &OsStr,
        failure: &Failure,
        streams: &mut Streams,
    ) -> Result<(), Failure> {
        self.count.untried += 1;
        self.status = self.status.worse(failure.status());
        if !self.asked.json {
            failure.tell(streams);
            return Ok(());
        }
        let mut fields = vec![
            ("file", Json::from(source::name(file))),
            ("result", "unread".into()),
        ];
        fields.extend(failure.json());
        streams.line(&Json::Object(fields).to_string())
    }

    /// Prints an object about a place of a script.
    fn object(
        &self,
        source: &Source,
        position: Option<Position>,
        result: &str,
        fields: Vec<(&'static str, Json)>,
        streams: &mut Streams,
    ) -> Result<(), Failure> {
        let mut all = vec![
            ("file", Json::from(source.name.as_str())),
            ("result", result.into()),
        ];
        all.extend(Json::position(position));
        all.extend(fields);
        streams.line(&Json::Object(all).to_string())
    }
}

/// What is asked and expected by a test, to stand in an object.
fn test_json(test: &Test) -> Vec<(&'static str, Json)> {
    vec![
        ("test", test.words.as_str().into()),
        ("expected", test.expected.to_string().into()),
    ]
}

/// The line of a test that failed.
fn failed(source: &Source, test: &Test, came: &str) -> String {
    let Test {
        position,
        words,
        expected,
        ..
    } = test;
    let name = &source.name;
    format!("{name}:{position}: test {words}: expected {expected}, came {came}")
}
