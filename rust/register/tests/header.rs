//! What the header, its C file and this crate say alike: names, numbers and words of refusals, limits, lengths,
//! version.
mod compiler;
use compiler::{DIALECTS, compile, header, include, made, run, said};
use register::{Entry, OPEN, Refusal, Settings};
use std::fs;
use std::process::Command;

/// `REGISTER_SHORT_HEAD` for `ShortHead`.
fn constant(name: &str) -> String {
    let mut constant = String::from("REGISTER");
    for letter in name.chars() {
        if letter.is_uppercase() {
            constant.push('_');
        }
        constant.push(letter.to_ascii_uppercase());
    }
    constant
}

/// The constants of an enum of the header, in their order.
fn constants(of: &str) -> Vec<(String, u32)> {
    let header = header();
    let begin = header.find(&format!("enum {of} {{")).expect("the header has the enum");
    let body = &header[begin..begin + header[begin..].find("};").expect("the enum ends")];
    let lines = body.lines().filter_map(|line| line.trim().strip_prefix("REGISTER_"));
    let named = lines.filter_map(|line| line.split_once(" = "));
    let number = |text: &str| text.split([',', ' ', '\n']).next().and_then(|digits| digits.parse().ok());
    named.map(|(name, text)| (format!("REGISTER_{name}"), number(text).expect("a number"))).collect()
}

#[test]
fn refusals_have_one_name() {
    let ours = Refusal::ALL.map(|refusal| (constant(&format!("{refusal:?}")), refusal.number()));
    let accepted = ("REGISTER_ACCEPTED".to_string(), 0);
    assert_eq!(constants("register_result"), [&[accepted][..], &ours].concat());
    for (number, refusal) in (1..).zip(Refusal::ALL) {
        assert_eq!(
            (refusal.number(), u32::from(refusal), Refusal::from_number(number)),
            (number, number, Some(refusal))
        );
    }
    assert_eq!([0, 15, OPEN].map(Refusal::from_number), [None; 3]);
}

#[test]
fn entries_have_one_kind() {
    let words = [
        [0; 6],
        Entry::Start { block: 0, useful: 0, blocks: 0, tags: 0 }.to_words(),
        Entry::Set { second: 0, tag: 0, reading: 0 }.to_words(),
        Entry::Clear { second: 0, tag: 0 }.to_words(),
        Entry::Update { second: 0, tag: 0, reading: 0 }.to_words(),
        Entry::Advance { second: 0 }.to_words(),
    ];
    let kinds: Vec<u32> = words.iter().map(|words| words[0]).chain([6]).collect();
    let named: Vec<u32> = constants("register_entry").iter().map(|constant| constant.1).collect();
    assert_eq!((kinds, Entry::WORDS), (named, 6));
}

/// A C program prints what the header's macros and `register_refusal_text` give; this crate's constants are the same.
#[test]
fn words_limits_and_lengths() {
    let s = Settings::new(64, 32, 4096, 4095).expect("sound settings");
    let numbers = [
        ("REGISTER_LEAST_BLOCK", Settings::LEAST_BLOCK as usize),
        ("REGISTER_MOST_BLOCK", Settings::MOST_BLOCK as usize),
        ("REGISTER_LEAST_USEFUL", Settings::LEAST_USEFUL as usize),
        ("REGISTER_LEAST_BLOCKS", Settings::LEAST_BLOCKS as usize),
        ("REGISTER_MOST_BLOCKS", Settings::MOST_BLOCKS as usize),
        ("REGISTER_LEAST_TAGS", Settings::LEAST_TAGS as usize),
        ("REGISTER_MOST_TAGS", Settings::MOST_TAGS as usize),
        ("REGISTER_OPEN", OPEN as usize),
        ("REGISTER_WORDS(64, 4096, 4095)", s.words()),
        ("REGISTER_ROW_WORDS(4095)", s.row_words()),
        ("REGISTER_LIST_WORDS(4096)", s.list_words()),
        ("REGISTER_ENTRY_WORDS", Entry::WORDS),
    ];
    let number =
        |(name, number): (&str, usize)| (format!("printf(\"%lu\\n\", (unsigned long){name});"), number.to_string());
    let words =
        |refusal: Refusal| (format!("puts(register_refusal_text({}));", refusal.number()), refusal.text().into());
    let version = ("puts(REGISTER_VERSION);".to_string(), env!("CARGO_PKG_VERSION").to_string());
    let lines = numbers.into_iter().map(number).chain(Refusal::ALL.map(words)).chain([version]);
    let (statements, expected): (Vec<String>, Vec<String>) = lines.unzip();
    let statements = statements.join("\n");
    let program =
        format!("#include <stdio.h>\n#include \"register.h\"\nint main(void) {{\n{statements}\nreturn 0;\n}}\n");
    let file = made("numbers.c");
    fs::write(&file, program).expect("cargo's folder can be written");
    for dialect in DIALECTS {
        let told = run(&compile(dialect, &[file.clone(), include().join("register_refusal.c")], "numbers"));
        assert_eq!(said(&told).lines().collect::<Vec<_>>(), expected, "{dialect:?}");
    }
}

/// The version in three numbers, and in the pkg-config file, which pkg-config reads if the machine has it.
#[test]
fn version() {
    let header = header();
    for (part, number) in ["MAJOR", "MINOR", "PATCH"].iter().zip(env!("CARGO_PKG_VERSION").split('.')) {
        assert!(header.contains(&format!("#define REGISTER_VERSION_{part} {number}\n")), "{part}");
    }
    let file = fs::read_to_string(include().join("register.pc.in")).expect("include/register.pc.in is there");
    assert!(file.contains(concat!("\nVersion: ", env!("CARGO_PKG_VERSION"), "\n")));
    fs::write(made("register.pc"), file.replace("@prefix@", "/some/where")).expect("cargo's folder can be written");
    let asked = Command::new("pkg-config")
        .args(["--cflags", "--libs", "register"])
        .env("PKG_CONFIG_PATH", env!("CARGO_TARGET_TMPDIR"))
        .output();
    match asked {
        Ok(told) => assert_eq!(said(&told).trim(), "-I/some/where/include -L/some/where/lib -lregister"),
        Err(error) => println!("pkg-config was not asked: {error}"),
    }
}
