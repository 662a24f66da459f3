//! The most stack that any chain of the library's functions takes, from its compiled code, is within what the header says. What is measured
//! on the calls themselves is in host/c/stack.c.
use std::collections::HashMap;
use std::process::Command;

const HEADER: &str = include_str!("../../include/lampthistle.h");
const ARCHIVE: &str = concat!(env!("OUT_DIR"), "/liblampthistle.a");
/// A pushed register, and a call's return address.
const WORD: u64 = 8;

/// A function: the bytes of its own frame, and the functions that it calls.
#[derive(Default)]
struct Function {
    frame: u64,
    calls: Vec<String>,
}

fn functions() -> HashMap<String, Function> {
    let words = ["-d", "-r", "--no-show-raw-insn", ARCHIVE];
    let ran = Command::new("objdump").args(words).output();
    let code = String::from_utf8(ran.expect("objdump runs").stdout).unwrap();
    let mut functions: HashMap<String, Function> = HashMap::new();
    let mut name = "";
    for line in code.lines() {
        if let Some((_, begun)) = line.split_once(" <").filter(|_| line.ends_with(">:")) {
            name = begun.trim_end_matches(">:");
        }
        let function = functions.entry(name.into()).or_default();
        function.frame += grown(name, line);
        function.calls.extend(called(line));
    }
    functions
}

/// The bytes by which an instruction makes the frame larger. A large frame is made in steps, each of which is read; one of many steps would be
/// made in a loop, whose steps cannot be counted here.
fn grown(name: &str, line: &str) -> u64 {
    let instruction = line.split('\t').nth(1).unwrap_or_default().trim();
    let (code, operands) = instruction.split_once(' ').unwrap_or((instruction, ""));
    match code {
        "push" => WORD,
        "sub" if operands.trim().ends_with(",%rsp") => {
            let size = operands.trim().strip_prefix("$0x");
            let size = size.and_then(|rest| rest.strip_suffix(",%rsp"));
            let size = size.unwrap_or_else(|| panic!("{name}: a frame that depends on data"));
            u64::from_str_radix(size, 16).unwrap()
        }
        "cmp" if operands.trim().ends_with(",%rsp") => panic!("{name}: a frame that a loop makes"),
        _ => 0,
    }
}

/// The function that a relocation names: `R_X86_64_PLT32 NAME-0x4`.
fn called(line: &str) -> Option<String> {
    let (_, name) = line.split_once("R_X86_64_PLT32\t")?;
    let name = name.trim_end_matches("-0x4");
    Some(name.trim_start_matches(".text.").into())
}

/// The most that a function takes with all that it calls; `above` are its callers, of which it may be none.
fn depth(all: &HashMap<String, Function>, name: &str, above: &[&str]) -> u64 {
    assert!(!above.contains(&name), "{name} calls itself");
    let Some(function) = all.get(name) else {
        assert!(["memcpy", "memset"].contains(&name), "{name}");
        return WORD;
    };
    let above = [above, &[name]].concat();
    let below = function.calls.iter().map(|name| depth(all, name, &above));
    WORD + function.frame + below.max().unwrap_or(0)
}

/// What the header says of a limit.
fn allowed(limit: &str) -> u64 {
    let start = format!("#define LAMPTHISTLE_{limit} ");
    let line = HEADER.lines().find_map(|line| line.strip_prefix(&start));
    line.unwrap().parse().unwrap()
}

#[test]
fn no_chain_of_calls_takes_more_stack_than_the_header_says() {
    let all = functions();
    let exported = all.keys().filter(|name| name.starts_with("lampthistle_"));
    let (floats, others): (Vec<&String>, Vec<&String>) =
        exported.partition(|name| name.contains("_floats"));
    assert!(others.len() >= 12, "{others:?}");
    assert_eq!(floats.len(), 3);
    for (names, limit) in [(others, "STACK_BYTES"), (floats, "FLOAT_STACK_BYTES")] {
        let depths = names.iter().map(|name| depth(&all, name, &[]));
        let most = depths.max().unwrap();
        // A bound far below the frames of the code would mean that they were not read.
        let allowed = 1_000..=allowed(limit);
        assert!(allowed.contains(&most), "{limit}: {most} bytes");
    }
}
