//! include/meter.h by itself: it compiles as C and as C++ without a warning, and its macros and texts are those of the Rust crate.

use meter::{head_geometry, most_image_words, size, Reason, LARGEST_WIDTH, WATCH_PLACES, WATCH_SIZE};
use std::env;
use std::ffi::OsString;
use std::fs;
use std::path::Path;
use std::process::Command;

/// Every number by its name with its text, every meter's size and words, every head's d and w, every place of a watch list.
const PROGRAM: &str = r#"
#include "meter.h"
#include "meter.h"
#include <stdio.h>

/* The macros are constants, of the largest meter too. */
static uint8_t memory[METER_SIZE(8, METER_LARGEST_WIDTH)];
static uint32_t words[METER_IMAGE_WORDS(8, METER_LARGEST_WIDTH)];
static uint8_t list[METER_WATCH_SIZE];

int main(void) {
    const uint32_t names[] = {METER_ACCEPTED,     METER_DEPTH,         METER_WIDTH, METER_LENGTH,  METER_KEY_LENGTH,     METER_CONTENT,
                              METER_COUNTER_FULL, METER_TOO_FEW_WORDS, METER_WORD,  METER_PAYLOAD, METER_OTHER_GEOMETRY, METER_ZERO_THRESHOLD,
                              METER_EVEN_DEPTH,   METER_MINUS_ZERO};
    uint32_t number, payload;
    size_t d, w, i;
    if (names[13] != METER_MINUS_ZERO || sizeof names / sizeof names[0] != 14)
        return 1;
    for (number = 0; number < 14; number++)
        printf("%lu %s\n", (unsigned long)names[number], meter_text(number));
    printf("%s\n%s\n", meter_text(14), meter_text(0xffffffff));
    for (d = 1; d <= 8; d++)
        for (w = 32; w <= METER_LARGEST_WIDTH; w *= 2)
            printf("%lu %lu\n", (unsigned long)METER_SIZE(d, w), (unsigned long)METER_IMAGE_WORDS(d, w));
    memory[sizeof memory - 1] = 1;
    words[METER_IMAGE_WORDS(8, METER_LARGEST_WIDTH) - 1] = memory[METER_SIZE(8, METER_LARGEST_WIDTH) - 1];
    printf("%lu %lu\n", (unsigned long)sizeof memory, (unsigned long)(sizeof words / sizeof words[0]) * words[METER_IMAGE_WORDS(8, METER_LARGEST_WIDTH) - 1]);
    /* Expressions as arguments. */
    printf("%lu %lu\n", (unsigned long)METER_SIZE(1 + 1, 32 + 32), (unsigned long)METER_IMAGE_WORDS(1 + 1, 32 + 32));
    for (payload = 0; payload < 512; payload++) {
        uint64_t figure = payload;
        printf("%lu %lu\n", (unsigned long)METER_HEAD_D(figure), (unsigned long)METER_HEAD_W(figure));
    }
    printf("%lu %lu\n", (unsigned long)METER_HEAD_D(0x10 | 1), (unsigned long)METER_HEAD_W(0x50 | 1));
    for (i = 0; i < METER_WATCH_PLACES; i++)
        printf("%lu %lu\n", (unsigned long)METER_WATCH_KEY(i), (unsigned long)METER_WATCH_ESTIMATE(i));
    printf("%lu %lu\n", (unsigned long)METER_WATCH_KEY(1 + 1), (unsigned long)METER_WATCH_ESTIMATE(1 + 1));
    list[METER_WATCH_SIZE - 1] = list[METER_WATCH_MARK];
    printf("%lu %d\n", (unsigned long)sizeof list, METER_WATCH_MARK);
    return 0;
}
"#;

fn expected() -> String {
    let mut lines = vec!["0 accepted".to_string()];
    for number in 1..14 {
        let reason = Reason::from_number(number).expect("a reason");
        lines.push(format!("{number} {reason}"));
    }
    lines.extend([14, u32::MAX].map(|number| Reason::from_number(number).expect("a reason").to_string()));
    let both = |d, w| {
        format!(
            "{} {}",
            size(d, w).expect("a meter"),
            most_image_words(d, w).expect("a meter")
        )
    };
    for d in 1..=8 {
        for log in 5..=LARGEST_WIDTH.ilog2() {
            lines.push(both(d, 1 << log));
        }
    }
    lines.extend([both(8, LARGEST_WIDTH), both(2, 64)]);
    for payload in 0..512 {
        let (d, w) = head_geometry(payload);
        lines.push(format!("{d} {w}"));
    }
    lines.push("1 32".into());
    // A list: the lengths, the mark, the keys, the estimates.
    let place = |i: usize| format!("{} {}", WATCH_PLACES + 1 + 64 * i, WATCH_SIZE - 8 * (WATCH_PLACES - i));
    lines.extend((0..WATCH_PLACES).map(place));
    lines.extend([place(2), format!("{WATCH_SIZE} {WATCH_PLACES}")]);
    lines.join("\n") + "\n"
}

/// Compiles and runs the program; none if there is no such compiler.
fn compiled(compiler: &OsString, options: &[&str], suffix: &str) -> Option<String> {
    let folder = Path::new(env!("CARGO_TARGET_TMPDIR"));
    let source = folder.join(format!("header{}.{suffix}", options[0]));
    let program = source.with_extension(format!("{suffix}.out"));
    fs::write(&source, PROGRAM).expect("a source file");
    let mut command = Command::new(compiler);
    command.args(options).args(["-Wall", "-Wextra", "-pedantic", "-Werror", "-I"]);
    command.arg(Path::new(env!("CARGO_MANIFEST_DIR")).join("../include"));
    let out = match command.arg(&source).arg("-o").arg(&program).output() {
        Ok(out) => out,
        Err(e) if e.kind() == std::io::ErrorKind::NotFound => return None,
        Err(e) => panic!("{command:?}: {e}"),
    };
    assert!(out.status.success(), "{command:?}: {}", String::from_utf8_lossy(&out.stderr));
    let out = Command::new(&program).output().expect("the program runs");
    assert!(out.status.success(), "{}: {}", program.display(), out.status);
    Some(String::from_utf8(out.stdout).expect("text"))
}

fn named(variable: &str, otherwise: &str) -> OsString {
    env::var_os(variable).unwrap_or_else(|| otherwise.into())
}

#[test]
fn as_c() {
    for standard in ["-std=c99", "-std=c11"] {
        let printed = compiled(&named("CC", "cc"), &[standard, "-Wconversion"], "c").expect("a C compiler");
        assert_eq!(printed, expected(), "{standard}");
    }
}

#[test]
fn as_cpp() {
    for standard in ["-std=c++11", "-std=c++17"] {
        match compiled(&named("CXX", "c++"), &[standard, "-Wconversion"], "cpp") {
            Some(printed) => assert_eq!(printed, expected(), "{standard}"),
            None => println!("SKIPPED: no C++ compiler, so meter.h was not compiled as C++"),
        }
    }
}
