//! The office's tool: every job of the proved library on record files.
#![forbid(unsafe_code)]

mod answer;
mod ask;
mod building;
mod call;
mod change;
mod difference;
mod failure;
mod files;
mod grid;
mod info;
mod labels;
mod pages;
mod records;
mod refusals;
mod walk;

use answer::{Answer, Form};
use change::Marks;
use clap::ArgMatches;
use failure::Failure;
use records::Loaded;
use std::process::ExitCode;
use walk::Question;
use zompelgors::{Dimension, Level};

/// What is printed on standard output, and the status.
type Outcome = Result<(String, u8), Failure>;

fn main() -> ExitCode {
    let ended = match call::command().try_get_matches() {
        Ok(matches) => answered(&matches),
        Err(error) if error.use_stderr() => {
            failure::tell(&error.to_string());
            2
        }
        Err(help) => ended(Ok((help.to_string(), 0)), None),
    };
    ExitCode::from(ended)
}

/// Answers a call that is one; the status.
fn answered(matches: &ArgMatches) -> u8 {
    let (name, options) = match matches.subcommand() {
        Some(found) => found,
        None => return 2,
    };
    let call = Call { name, options };
    let refused_to = (call.form() == Form::Json && call.given("out") != Some(files::STANDARD)).then_some(());
    ended(call.outcome(), refused_to)
}

/// Prints what was found, or says why nothing was; the status. A refusal is an answer too where JSON is asked for.
fn ended(outcome: Outcome, refused_as_json: Option<()>) -> u8 {
    let (printed, status) = match outcome {
        Ok(found) => found,
        Err(failure) => {
            failure.told();
            let json = refused_as_json.and_then(|()| as_json(&failure));
            (json.unwrap_or_default(), failure.status())
        }
    };
    match files::print(printed.as_bytes()) {
        Ok(()) => status,
        Err(failure) => {
            failure.told();
            failure.status()
        }
    }
}

/// A refusal with its fields.
fn as_json(failure: &Failure) -> Option<String> {
    let refused = match failure {
        Failure::Refused(refused) => refused,
        _ => return None,
    };
    let fields = vec![
        ("file", answer::text(&*refused.file)),
        ("number", refused.refusal.number.into()),
        ("level", refused.refusal.level.into()),
        ("involution", refused.refusal.involution.into()),
        ("dart", refused.refusal.dart.into()),
        ("sentence", answer::text(&*refused.sentence)),
    ];
    Some(Answer::of(fields).printed(Form::Json))
}

/// A command with its options.
struct Call<'a> {
    name: &'a str,
    options: &'a ArgMatches,
}

impl Call<'_> {
    fn form(&self) -> Form {
        match (self.flag("json"), self.flag("csv")) {
            (true, _) => Form::Json,
            (_, true) => Form::Csv,
            _ => Form::Text,
        }
    }

    /// An option that this command may not have counts as not given.
    fn flag(&self, name: &str) -> bool {
        self.options
            .try_get_one::<bool>(name)
            .ok()
            .flatten()
            .copied()
            .unwrap_or(false)
    }

    fn given(&self, name: &str) -> Option<&str> {
        self.options
            .try_get_one::<String>(name)
            .ok()
            .flatten()
            .map(String::as_str)
    }

    fn text(&self, name: &str) -> &str {
        self.given(name).unwrap_or_default()
    }

    fn byte(&self, name: &str) -> Option<u8> {
        self.options.try_get_one::<u8>(name).ok().flatten().copied()
    }

    fn level(&self) -> Level {
        Level(self.byte("level").unwrap_or_default())
    }

    fn files(&self) -> Vec<String> {
        self.options
            .get_many::<String>("F")
            .map(|files| files.cloned().collect())
            .unwrap_or_default()
    }

    fn size(&self, name: &str) -> Option<&[usize]> {
        self.options.get_one::<Vec<usize>>(name).map(Vec::as_slice)
    }

    fn record(&self) -> Result<Loaded, Failure> {
        Loaded::read(self.text("F"))
    }

    fn outcome(&self) -> Outcome {
        match self.name {
            "info" | "check" => self.many(),
            "diff" => self.diff(),
            "man" => Ok((pages::man(), 0)),
            "completion" => Ok((pages::completion(), 0)),
            "import" | "convert" | "grid" | "build" => self.accepted(self.made()?),
            _ => self.accepted(self.asked(self.record()?)?),
        }
    }

    fn accepted(&self, answer: Answer) -> Outcome {
        let silent = answer.fields.is_empty() && answer.tables.is_empty();
        Ok((
            if silent {
                String::new()
            } else {
                answer.printed(self.form())
            },
            0,
        ))
    }

    /// Commands on many files.
    fn many(&self) -> Outcome {
        let files = self.files();
        files::apart(&[], &files.iter().map(String::as_str).collect::<Vec<_>>())?;
        match self.name {
            "info" => info::info(&files, self.form()),
            _ => Ok(info::check(&files, self.form())),
        }
    }

    fn diff(&self) -> Outcome {
        let (one, other) = (self.text("A"), self.text("B"));
        files::apart(&[], &[one, other])?;
        let (answer, differ) = difference::diff(&Loaded::read(one)?, &Loaded::read(other)?)?;
        Ok((answer.printed(self.form()), u8::from(differ)))
    }

    /// Commands that make a record of something else.
    fn made(&self) -> Result<Answer, Failure> {
        let out = self.text("out");
        match self.name {
            "import" => change::import(self.text("MAP"), out),
            "convert" => change::convert(self.text("OLD"), out),
            "grid" => change::grid(self.size("SIZE").unwrap_or_default(), out),
            _ => change::build(self.text("LABELS"), self.size("size"), out),
        }
    }

    /// Commands on one record.
    fn asked(&self, loaded: Loaded) -> Result<Answer, Failure> {
        let (level, out) = (self.level(), self.text("out"));
        match self.name {
            "levels" => ask::levels(&loaded),
            "census" => ask::census(&loaded),
            "decimation" => ask::decimation(&loaded, self.byte("level")),
            "regions" => ask::regions(&loaded, level),
            "survivors" => ask::survivors(&loaded, level),
            "marks" => self.marks(&loaded),
            "row" => ask::row(&loaded, level, self.involution()),
            "unfold" => ask::unfold(&loaded, self.byte("level").map(Level)),
            "read" => walk::read(&loaded, self.question(), self.flag("by-levels"), self.flag("trail")),
            "mark" => change::mark(
                &loaded,
                self.byte("level"),
                self.byte("dimension").unwrap_or_default(),
                out,
            ),
            "add" => change::add(loaded, self.kernel(), out),
            "join" => change::join(loaded, level.0, out),
            "rebase" => change::rebase(loaded, level.0, self.given("old"), out),
            "export" => change::export(&loaded, out),
            other => Err(Failure::Bad(format!("there is no command {other}"))),
        }
    }

    fn marks(&self, loaded: &Loaded) -> Result<Answer, Failure> {
        match self.given("out") {
            Some(out) => change::put_marks(loaded, &ask::mark_row(loaded, self.level())?, out),
            None => ask::marks(loaded, self.level()),
        }
    }

    fn kernel(&self) -> Marks<'_> {
        match self.byte("cells") {
            Some(dimension) => Marks::Cells(dimension),
            None => Marks::File(self.text("marks")),
        }
    }

    fn involution(&self) -> Dimension {
        Dimension(self.byte("involution").unwrap_or_default())
    }

    fn question(&self) -> Question {
        Question {
            level: self.level(),
            involution: self.involution(),
            dart: self.options.get_one("dart").copied().unwrap_or_default(),
        }
    }
}
