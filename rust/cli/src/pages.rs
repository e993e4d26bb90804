//! The man page and the completion for bash, made from the call itself, so that they have what it has.
use crate::call::{command, STATUS};
use clap::{Arg, Command};

/// The man page, in troff.
pub fn man() -> String {
    let call = command();
    let mut page = format!(
        ".TH ZOMPELGORS 1 \"\" \"zompelgors {}\" \"User Commands\"\n.SH NAME\nzompelgors \\- {}\n",
        call.get_version().unwrap_or_default(),
        plain(&about(&call))
    );
    page += ".SH SYNOPSIS\n.B zompelgors\n.I COMMAND\n[\\fB\\-\\-json\\fR|\\fB\\-\\-csv\\fR] ...\n";
    page += ".SH DESCRIPTION\nEvery job of the library libzompelgors.a on record files. The library answers; this command \
             reads, writes and prints.\nNothing is changed in place, and nothing is written where anything is refused.\n";
    page += ".SH COMMANDS\n";
    for sub in shown(&call) {
        page += &section(sub);
    }
    page += ".SH OPTIONS OF ALL COMMANDS\n";
    call.get_arguments().for_each(|arg| page += &item(arg));
    page += &format!(".SH EXIT STATUS\n{}\n", plain(STATUS));
    page += ".SH ENVIRONMENT\n.TP\n.B ZOMPELGORS_CONVERT\nThe program convert, if it isn't libexec/zompelgors/convert of the release that this command lies in.\n";
    page += ".SH SEE ALSO\nThe page OFFICE of the documentation: from an image to answers in fifteen minutes.\n";
    page
}

/// The commands that people see.
fn shown(call: &Command) -> impl Iterator<Item = &Command> {
    call.get_subcommands().filter(|sub| !sub.is_hide_set())
}

fn about(command: &Command) -> String {
    command.get_about().map(ToString::to_string).unwrap_or_default()
}

/// A text in which troff sees no request of its own.
fn plain(text: &str) -> String {
    text.replace('\\', "\\\\")
        .replace('-', "\\-")
        .replace("\n'", "\n\\&'")
        .replace("\n.", "\n\\&.")
}

fn section(sub: &Command) -> String {
    let mut to = format!(".SS {}", sub.get_name());
    for arg in sub.get_arguments() {
        to += &plain(&match (takes(arg), arg.is_required_set()) {
            (word, true) => format!(" {word}"),
            (word, false) => format!(" [{word}]"),
        });
    }
    to += &format!("\n{}.\n", plain(&about(sub)));
    sub.get_arguments().for_each(|arg| to += &item(arg));
    to
}

fn item(arg: &Arg) -> String {
    let help = arg.get_help().map(ToString::to_string).unwrap_or_default();
    format!(".TP\n.B {}\n{}.\n", plain(&takes(arg)), plain(&help))
}

/// How an argument is written: its option, if it has one, and its value, if it takes one.
fn takes(arg: &Arg) -> String {
    let option = match (arg.get_short(), arg.get_long()) {
        (Some(short), _) => format!("-{short}"),
        (None, Some(long)) => format!("--{long}"),
        (None, None) => String::new(),
    };
    let value = match arg.get_value_names() {
        Some(names) if arg.get_action().takes_values() => names.join(" ") + many(arg),
        _ => String::new(),
    };
    format!("{option} {value}").trim().to_string()
}

/// What stands behind an argument that may be given several times over.
fn many(arg: &Arg) -> &'static str {
    match arg.get_num_args() {
        Some(range) if range.max_values() > 1 => "..",
        _ => "",
    }
}

/// The completion for bash: a command, then its options and files.
pub fn completion() -> String {
    let call = command();
    let names: Vec<_> = shown(&call).map(|sub| sub.get_name().to_string()).collect();
    let mut to = format!(
        "# Completion for bash of the command zompelgors; it prints this itself: zompelgors completion\n\
         _zompelgors() {{\n    local word=${{COMP_WORDS[COMP_CWORD]}} options\n    COMPREPLY=()\n    \
         if [ \"$COMP_CWORD\" -eq 1 ]; then\n        \
         mapfile -t COMPREPLY < <(compgen -W \"{} --help --version\" -- \"$word\")\n        return\n    fi\n    \
         case ${{COMP_WORDS[1]}} in\n",
        names.join(" ")
    );
    for sub in shown(&call) {
        to += &format!(
            "    {}) options=\"{}\" ;;\n",
            sub.get_name(),
            options(sub, &call).join(" ")
        );
    }
    to += "    *) return ;;\n    esac\n    case $word in\n    \
           -*) mapfile -t COMPREPLY < <(compgen -W \"$options\" -- \"$word\") ;;\n    \
           *) mapfile -t COMPREPLY < <(compgen -f -- \"$word\") ;;\n    esac\n}\n\
           complete -o filenames -F _zompelgors zompelgors\n";
    to
}

fn options(sub: &Command, call: &Command) -> Vec<String> {
    let all = sub.get_arguments().chain(call.get_arguments());
    let long = all.filter_map(|arg| arg.get_long()).map(|name| format!("--{name}"));
    long.chain(["--help".to_string()]).collect()
}
