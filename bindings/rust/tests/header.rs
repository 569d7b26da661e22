//! `sys` declares what include/tl.h does, argument for argument.

use std::collections::BTreeMap;
use std::io::Write;
use std::process::{Command, Stdio};

use tl_rattle::{max_nodes, sys, words_for, Profile, HEADER_WORDS, MAX_PAGE, ROW_WORDS};

const HEADER: &str = include_str!("../../../include/tl.h");
const SYS: &str = include_str!("../src/sys.rs");

/// A text without what stands between two marks.
fn without(mut text: &str, open: &str, close: &str) -> String {
    let mut rest = String::new();
    while let Some((before, after)) = text.split_once(open) {
        rest.push_str(before);
        text = after.split_once(close).expect("it is closed").1;
    }
    rest + text
}

/// The declarations of a text: between a call's name, which `before` precedes, and `after`.
fn declared(text: &str, before: &str, after: &str) -> BTreeMap<String, Vec<String>> {
    let mut calls = BTreeMap::new();
    for part in text.split(before).skip(1) {
        let (name, part) = part.split_once('(').expect("a call has arguments");
        let (arguments, _) = part.split_once(after).expect("and they end");
        let arguments = arguments.split(',').map(|a| a.split_whitespace());
        let arguments = arguments.map(|words| words.collect::<Vec<_>>().join(" "));
        let arguments = arguments.filter(|argument| !argument.is_empty()).collect();
        assert_eq!(calls.insert(name.to_owned(), arguments), None, "{name}");
    }
    calls
}

/// A type of the header as Rust writes it.
fn kind_in_rust(kind: &str) -> &str {
    match kind {
        "uint8_t" | "char" => "u8",
        "uint32_t" => "u32",
        "size_t" => "usize",
        "struct tl_profile" => "tl_profile",
        _ => panic!("{kind}"),
    }
}

/// An argument of the header as Rust writes it.
fn in_rust(argument: &str) -> String {
    let (kind, name) = argument.rsplit_once(' ').expect("a type and a name");
    let (constant, kind) = match kind.strip_prefix("const ") {
        Some(kind) => (true, kind),
        None => (false, kind),
    };
    let kind = kind_in_rust(kind);
    let pointed = name.strip_prefix('*');
    let listed = name.split_once('[').map(|(name, _)| name);
    match (pointed.or(listed), constant) {
        (Some(name), true) => format!("{name}: *const {kind}"),
        (Some(name), false) => format!("{name}: *mut {kind}"),
        (None, false) => format!("{name}: {kind}"),
        (None, true) => panic!("{argument}"),
    }
}

/// A member of the header's struct as Rust writes it.
fn member_in_rust(member: &str) -> String {
    let (kind, name) = member.trim().rsplit_once(' ').expect("a type and a name");
    let mut parts = name.split('[');
    let name = parts.next().expect("a name");
    let sizes = parts.map(|size| size.trim_end_matches(']'));
    let kind = sizes
        .rev()
        .fold(kind_in_rust(kind).to_owned(), |kind, size| {
            format!("[{kind}; {size}]")
        });
    format!("pub {name}: {kind}")
}

/// What stands in a text between the two marks.
fn between<'t>(text: &'t str, open: &str, close: &str) -> &'t str {
    let (_, rest) = text.split_once(open).expect("it is opened");
    rest.split_once(close).expect("it is closed").0
}

/// Whether a compiler takes a program that includes the header, without a warning.
fn compiles(compiler: &str, arguments: &[&str], program: &str) -> bool {
    let include = concat!(env!("CARGO_MANIFEST_DIR"), "/../../include");
    let mut compiler = Command::new(compiler)
        .args(["-Wall", "-Wextra", "-pedantic", "-Werror", "-I", include])
        .args(arguments)
        .arg("-")
        .stdin(Stdio::piped())
        .spawn()
        .expect("there is such a compiler");
    let mut source = compiler.stdin.take().expect("it reads the program");
    source.write_all(program.as_bytes()).unwrap();
    drop(source);
    compiler.wait().unwrap().success()
}

#[test]
fn in_c_and_in_cpp() {
    let standards = [
        ("cc", "c", "-std=c99"),
        ("cc", "c", "-std=c11"),
        ("c++", "c++", "-std=c++11"),
    ];
    let program = "#include \"tl.h\"\nstruct tl_profile made(void);\n\
        struct tl_profile made(void) { struct tl_profile p = TL_PROFILE_DEFAULT; return p; }\n";
    for (compiler, language, standard) in standards {
        let arguments = [standard, "-fsyntax-only", "-x", language];
        assert!(compiles(compiler, &arguments, program), "{standard}");
    }
}

#[test]
fn the_calls() {
    let header = without(HEADER, "/*", "*/");
    let mut header = declared(&header, "\nuint32_t ", ");");
    for arguments in header.values_mut() {
        for argument in arguments {
            *argument = in_rust(argument);
        }
    }
    assert_eq!(header.len(), 12);
    assert_eq!(header, declared(SYS, "pub fn ", ") -> u32;"));
}

#[test]
fn the_numbers() {
    let defined: Vec<(&str, u32)> = HEADER
        .lines()
        .filter_map(|line| line.strip_prefix("#define ")?.split_once(' '))
        .filter(|(name, _)| !name.contains('('))
        .map(|(name, value)| (name, value.trim_end_matches('u').parse().unwrap()))
        .collect();
    assert_eq!(
        defined,
        [
            ("TL_SCAN", sys::TL_SCAN),
            ("TL_CLOSED", sys::TL_CLOSED),
            ("TL_VIEW_ALL", sys::TL_VIEW_ALL),
            ("TL_VIEW_FINISHED", sys::TL_VIEW_FINISHED),
            ("TL_HEADER", sys::TL_HEADER),
            ("TL_ROW", sys::TL_ROW),
            ("TL_ENDED_OPEN", sys::TL_ENDED_OPEN),
            ("TL_ENDED_CLOSED", sys::TL_ENDED_CLOSED),
            ("TL_ENDED_CUT_SHORT", sys::TL_ENDED_CUT_SHORT),
            ("TL_ENDED_NEVER_OPENED", sys::TL_ENDED_NEVER_OPENED),
        ]
    );
    // and `sys` has no other
    let constants: Vec<(&str, u32)> = SYS
        .lines()
        .filter_map(|line| line.strip_prefix("pub const "))
        .filter(|constant| !constant.starts_with("TL_PROFILE_DEFAULT: "))
        .map(|constant| constant.split_once(": u32 = ").expect("it is a u32"))
        .map(|(name, value)| (name, value.trim_end_matches(';').parse().unwrap()))
        .collect();
    assert_eq!(defined, constants);
}

/// The header's room macros, worked out by a C compiler, beside the constants and functions.
#[test]
fn the_room_for_a_page() {
    let mut asserts = String::from("#include \"tl.h\"\n");
    let lengths = (0..100).chain([65_535, MAX_PAGE, usize::MAX - 1, usize::MAX]);
    for bytes in lengths {
        let nodes = max_nodes(bytes);
        asserts += &format!("_Static_assert(TL_MAX_NODES((size_t){bytes}u) == {nodes}u, \"\");\n");
    }
    for (name, words) in [("TL_HEADER", HEADER_WORDS), ("TL_ROW", ROW_WORDS)] {
        asserts += &format!("_Static_assert({name} == {words}u, \"\");\n");
    }
    for (nodes, words) in [(0, 8), (1, 17), (3, 35), (43_691, 393_227)] {
        assert_eq!(words_for(nodes), words);
        asserts += &format!("_Static_assert(TL_WORDS({nodes}u) == {words}u, \"\");\n");
    }
    let arguments = ["-std=c11", "-fsyntax-only", "-x", "c"];
    assert!(compiles("cc", &arguments, &asserts));
}

#[test]
fn the_profile() {
    let members = between(HEADER, "struct tl_profile {", "}").split(';');
    let members = members.filter(|member| !member.trim().is_empty());
    let members: Vec<String> = members.map(member_in_rust).collect();
    let of_sys = between(SYS, "pub struct tl_profile {", "}").lines();
    let of_sys = of_sys.map(|line| line.trim().trim_end_matches(','));
    let of_sys = of_sys.filter(|line| !line.is_empty() && !line.starts_with("///"));
    assert_eq!(members, of_sys.collect::<Vec<_>>());
}

/// The header's constant, as a C program writes it.
#[test]
fn tls_profile() {
    let program = "#include <stdio.h>\n#include \"tl.h\"\n\
        int main(void) { return fwrite(&TL_PROFILE_DEFAULT, 392, 1, stdout) != 1; }\n";
    let path = concat!(env!("CARGO_TARGET_TMPDIR"), "/tls_profile");
    let arguments = ["-std=c11", "-o", path, "-x", "c"];
    assert!(compiles("cc", &arguments, program));
    let said = Command::new(path).output().expect("it runs");
    assert!(said.status.success());
    assert_eq!(said.stdout, Profile::TL.to_bytes());
}
