//! The C program beside the header is built with the system's C compiler,
//! linked with the library, and run; so is a C++ program that calls every
//! function of the header.

use std::path::{Path, PathBuf};
use std::process::Command;
use std::{env, fs};

/// A store without messages (free chain 1, 2, .. 239) is sound, and is not once
/// a Fetch is written over a free record, which then reads back.
const CPP: &str = r#"
#include "yagvost.h"
#include <vector>

int main()
{
    std::vector<uint8_t> store(YAGVOST_STORE_BYTES);
    store[2] = 3;
    for (int record = 0; record + 1 < YAGVOST_RECORDS; record++)
        store[record * YAGVOST_RECORD_BYTES] = static_cast<uint8_t>(record + 1);
    if (!yagvost_is_sound(store.data(), store.size(), 3))
        return 1;
    std::vector<uint64_t> numbers(YAGVOST_NUMBERS), read(YAGVOST_NUMBERS);
    numbers[1] = 5;
    if (!yagvost_write_record(store.data(), store.size(), 1, 3, numbers.data(), numbers.size()))
        return 2;
    if (!yagvost_read_record(store.data(), store.size(), 1, 3, read.data(), read.size()) || read != numbers)
        return 3;
    if (yagvost_is_sound(store.data(), store.size(), 3))
        return 4;
    std::vector<uint8_t> answers(YAGVOST_LINE_ROOM);
    return yagvost_run_script(nullptr, 0, answers.data(), answers.size()) == 0 ? 0 : 5;
}
"#;

fn hosts() -> PathBuf {
    Path::new(env!("CARGO_MANIFEST_DIR")).join("..")
}

/// Build a program with the compiler that this variable names, or this one.
fn build(variable: &str, compiler: &str, standard: &str, source: &Path, name: &str) -> PathBuf {
    let program = Path::new(env!("CARGO_TARGET_TMPDIR")).join(name);
    let compiler = env::var(variable).unwrap_or(compiler.into());
    let built = Command::new(&compiler)
        .args([standard, "-Wall", "-Wextra", "-Wpedantic", "-Werror", "-O2", "-I"])
        .arg(hosts().join("c"))
        .arg("-o")
        .arg(&program)
        .arg(source)
        .arg(hosts().join("../crates/host_api/out/libhost_api.a"))
        .status()
        .unwrap_or_else(|error| panic!("the compiler {compiler}: {error}"));
    assert!(built.success());
    program
}

#[test]
fn the_c_program_prints_the_answers() {
    let program = build("CC", "cc", "-std=c11", &hosts().join("c/example.c"), "example");
    let run = Command::new(&program).output().expect("the program that was built");
    let printed = String::from_utf8(run.stdout).expect("text");
    assert!(run.status.success());
    let lines: Vec<&str> = printed.lines().collect();
    assert_eq!(lines.len(), 16);
    assert_eq!((lines[0], lines[5], lines[15]), ("1 ok", "6 settled 1 65", "16 accepted 1 65"));
}

#[test]
fn a_cpp_program_links_every_function() {
    let source = Path::new(env!("CARGO_TARGET_TMPDIR")).join("calls.cpp");
    fs::write(&source, CPP).expect("a file for the program");
    let program = build("CXX", "c++", "-std=c++11", &source, "calls");
    let run = Command::new(&program).status().expect("the program that was built");
    assert_eq!(run.code(), Some(0));
}
