//! The commands and their options; the help, the man page and the completion are made from these.
use crate::grid;
use clap::{value_parser, Arg, ArgAction, ArgGroup, Command};

/// What stands at the end of the help and in the man page.
pub const STATUS: &str = "\
Status: 0 accepted, 1 refused (diff: or the records differ), 2 a wrong call or file,
3 something can't be written. Of many files it is the highest.
A file '-' is standard input, and behind -o standard output.";

/// In a help the options of all commands stand behind a command's own, and before the help itself.
const BEHIND: usize = 100;

/// The whole call.
pub fn command() -> Command {
    let forms = [
        Arg::new("json")
            .long("json")
            .help("Print the answer as JSON")
            .display_order(BEHIND),
        Arg::new("csv")
            .long("csv")
            .help("Print the answer as CSV: its last table")
            .display_order(BEHIND + 1)
            .conflicts_with("json"),
    ];
    Command::new("zompelgors")
        .version(env!("CARGO_PKG_VERSION"))
        .about("Asks and changes pyramids of generalized maps in record files")
        .after_help(STATUS)
        .subcommand_required(true)
        .arg_required_else_help(true)
        .disable_help_subcommand(true)
        .args(forms.map(|arg| arg.global(true).action(ArgAction::SetTrue)))
        .subcommands(looking())
        .subcommands(asking())
        .subcommands(walking())
        .subcommands(changing())
        .subcommands(partner())
        .subcommands(making())
        .subcommands(pages())
}

fn sub(name: &'static str, about: &'static str) -> Command {
    Command::new(name).about(about)
}

fn file(name: &'static str, help: &'static str) -> Arg {
    Arg::new(name).value_name(name).help(help).required(true)
}

/// The record that a command reads.
fn record() -> Arg {
    file("F", "The record")
}

fn out(help: &'static str) -> Arg {
    Arg::new("out")
        .short('o')
        .long("output")
        .value_name("OUT")
        .help(help)
        .required(true)
}

fn new_record() -> Arg {
    out("Where the new record goes")
}

fn byte(name: &'static str, help: &'static str) -> Arg {
    let upper: &'static str = match name {
        "level" => "L",
        "involution" => "I",
        _ => "D",
    };
    Arg::new(name)
        .long(name)
        .value_name(upper)
        .help(help)
        .value_parser(value_parser!(u8))
}

fn level(help: &'static str) -> Arg {
    byte("level", help).required(true)
}

/// Commands that look at whole files.
fn looking() -> [Command; 3] {
    let many = || file("F", "The records").num_args(1..);
    [
        sub(
            "info",
            "Sizes, survivors, marks by kind and dimension, and factors of records",
        )
        .arg(many()),
        sub("check", "Whether records are accepted, a line for each").arg(many()),
        sub(
            "diff",
            "The first level, row and dart on which two records differ, and how much differs",
        )
        .arg(file("A", "A record"))
        .arg(file("B", "Another")),
    ]
}

/// Commands that answer what a job answers of all levels or of marks.
fn asking() -> [Command; 6] {
    [
        sub(
            "levels",
            "For each level survivors, base entries read, and since when its links stand",
        )
        .arg(record()),
        sub(
            "census",
            "For each level its cells of each dimension and their alternating sum, the Euler number only while every cell is a ball",
        )
        .arg(record()),
        sub("decimation", "By which factor a level shrinks to the next")
            .arg(record())
            .arg(byte("level", "This level alone")),
        sub("regions", "The regions of a level, and the name of each dart's region")
            .arg(record())
            .arg(level("The level")),
        sub("survivors", "The darts of a level")
            .arg(record())
            .arg(level("The level")),
        sub("marks", "The mark row of a level")
            .arg(record())
            .arg(level("The level"))
            .arg(out("Write the row, as 'add --marks' reads it").required(false)),
    ]
}

/// Commands that answer with neighbours.
fn walking() -> [Command; 3] {
    [
        sub("row", "One involution of a level, an entry for each dart")
            .arg(record())
            .arg(level("The level"))
            .arg(byte("involution", "The involution").required(true)),
        sub("unfold", "A level written out, or all")
            .arg(record())
            .arg(byte("level", "The level"))
            .arg(
                Arg::new("all")
                    .long("all")
                    .help("All levels")
                    .action(ArgAction::SetTrue),
            )
            .group(ArgGroup::new("which").args(["level", "all"]).required(true)),
        reading(),
    ]
}

fn reading() -> Command {
    let flag = |name: &'static str, help: &'static str| Arg::new(name).long(name).help(help).action(ArgAction::SetTrue);
    sub(
        "read",
        "The neighbour of a dart on a level, and since which level it stands",
    )
    .arg(record())
    .arg(level("The level"))
    .arg(byte("involution", "The involution").required(true))
    .arg(
        Arg::new("dart")
            .long("dart")
            .value_name("D")
            .help("The dart")
            .required(true)
            .value_parser(value_parser!(u16)),
    )
    .arg(flag(
        "by-levels",
        "Answer by readings one level lower each; 'since' isn't told then",
    ))
    .arg(flag("trail", "List the darts that the walk passes"))
}

/// Commands that change a record, into another file.
fn changing() -> [Command; 4] {
    [
        sub(
            "mark",
            "Mark the cells of one dimension that can be removed, on the top level or another",
        )
        .arg(record())
        .arg(byte("dimension", "The dimension, below n").required(true))
        .arg(byte("level", "The level, if it isn't the top"))
        .arg(out("Where the mark row goes")),
        sub("add", "Add a level: remove or contract the cells that are marked")
            .arg(record())
            .arg(
                Arg::new("marks")
                    .long("marks")
                    .value_name("M")
                    .help("A mark row: N numbers and white space"),
            )
            .arg(byte("cells", "Mark the cells of this dimension, as 'mark' does"))
            .group(ArgGroup::new("kernel").args(["marks", "cells"]).required(true))
            .arg(new_record()),
        sub("join", "Make one kernel of two that follow each other")
            .arg(record())
            .arg(level("The first of the two"))
            .arg(new_record()),
        sub("rebase", "Start again from a level, which becomes the base")
            .arg(record())
            .arg(level("The level"))
            .arg(
                Arg::new("old")
                    .long("old")
                    .value_name("O")
                    .help("Write the old numbers of the darts here"),
            )
            .arg(new_record()),
    ]
}

/// A partner's maps.
fn partner() -> [Command; 2] {
    [
        sub("import", "Make a base of a partner's combinatorial map")
            .arg(file(
                "MAP",
                "M, the edge row and the vertex row: numbers and white space",
            ))
            .arg(new_record()),
        sub("export", "Take a base back to a partner's combinatorial map")
            .arg(record())
            .arg(out("Where the map goes")),
    ]
}

/// Commands that make a record of something else.
fn making() -> [Command; 3] {
    let size = |arg: Arg| arg.value_name("SIZE").value_parser(grid::sizes);
    let block = file("SIZE", "As 4x4x5: at most 512 pixels, 85 voxels or 10 4D cells");
    let raw = Arg::new("size").long("size");
    [
        sub(
            "convert",
            "Make a new record of an old one, with rows of one byte an entry",
        )
        .arg(file("OLD", "The old record"))
        .arg(new_record()),
        sub(
            "grid",
            "The base of a block of pixels, voxels or 4D cells, open at its border",
        )
        .arg(size(block))
        .arg(new_record()),
        sub(
            "build",
            "Make a pyramid of a labelled image: regions merged, boundaries simplified",
        )
        .arg(file(
            "LABELS",
            "A PGM, or raw bytes with --size; at most 512 pixels or 85 voxels",
        ))
        .arg(size(raw.help("The file is raw bytes of this size, as 4x4x5")))
        .arg(new_record()),
    ]
}

/// What a package needs, made from this very call.
fn pages() -> [Command; 2] {
    [
        sub("man", "Print the man page").hide(true),
        sub("completion", "Print the completion for bash").hide(true),
    ]
}
