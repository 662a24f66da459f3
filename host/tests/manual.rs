//! docs/lampthistle.1 names every command and every option that the program's help names.
use std::collections::BTreeSet;
use std::path::Path;
use std::process::Command;

fn help(words: &[&str]) -> String {
    let program = env!("CARGO_BIN_EXE_lampthistle");
    let output = Command::new(program).args(words).output().unwrap();
    assert!(output.status.success(), "{words:?}");
    String::from_utf8(output.stdout).unwrap()
}

fn manual() -> String {
    let page = Path::new(env!("CARGO_MANIFEST_DIR")).join("../docs/lampthistle.1");
    let text = std::fs::read_to_string(page).unwrap();
    text.replace("\\-", "-")
}

/// The commands of the overview.
fn commands() -> BTreeSet<String> {
    let help = help(&["--help"]);
    let names = help
        .lines()
        .filter_map(|line| line.strip_prefix("  lampthistle ")?.split(' ').next());
    names
        .filter(|name| name.starts_with(char::is_lowercase) && *name != "help")
        .map(String::from)
        .collect()
}

fn options(text: &str) -> impl Iterator<Item = &str> {
    let words = text.split(|c: char| c != '-' && !c.is_ascii_lowercase());
    words.filter(|word| word.len() > 2 && word.starts_with("--"))
}

/// The page's part on a command: from its heading to the next.
fn part(manual: &str, command: &str) -> String {
    let heading = format!("\n.SS {command} ");
    let (_, from) = manual
        .split_once(&heading)
        .unwrap_or_else(|| panic!("no {heading}"));
    from.split("\n.S").next().unwrap().into()
}

#[test]
fn the_manual_has_every_command_with_its_options() {
    let manual = manual();
    let (_, common) = manual.split_once("\n.SH OPTIONS").unwrap();
    let commands = commands();
    assert!(commands.len() >= 9, "{commands:?}");
    let mut missing = Vec::new();
    for command in commands {
        let (part, help) = (part(&manual, &command), help(&[&command, "--help"]));
        let named = |option: &&str| options(&part).chain(options(common)).any(|o| o == *option);
        let left = options(&help).filter(|option| !named(option));
        missing.extend(left.map(|option| format!("{command} {option}")));
    }
    assert!(missing.is_empty(), "not in the manual: {missing:?}");
}

#[test]
fn the_manual_names_no_other_option() {
    let commands = commands();
    let helps = commands.iter().map(|command| help(&[command, "--help"]));
    let known = helps.collect::<String>() + &help(&["--help"]) + " --help";
    for option in options(&manual()) {
        assert!(options(&known).any(|o| o == option), "{option}");
    }
}
