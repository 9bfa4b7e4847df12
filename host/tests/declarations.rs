//! The calls are declared three times: in Rattle, in C and in Rust. No compiler holds these together, so this does. The numbers have
//! names and texts in C and in Rust: here the names and numbers are compared, and in tests/header.rs what a compiler makes of them.

use meter::Reason;
use std::fs;
use std::path::Path;

/// A call as C has it: its name, and type and name of each parameter.
#[derive(Debug, PartialEq, Eq, PartialOrd, Ord)]
struct Call {
    name: String,
    parameters: Vec<(String, String)>,
    result: String,
}

fn read(path: &str) -> String {
    let path = Path::new(env!("CARGO_MANIFEST_DIR")).join(path);
    fs::read_to_string(&path).unwrap_or_else(|e| panic!("{}: {e}", path.display()))
}

fn words(text: &str) -> String {
    text.split_whitespace().collect::<Vec<_>>().join(" ")
}

/// The text between the first of `open` and the next `close` after it, and what follows.
fn between<'a>(text: &'a str, open: &str, close: &str) -> Option<(&'a str, &'a str)> {
    let from = text.find(open)? + open.len();
    let to = from + text[from..].find(close)?;
    Some((&text[from..to], &text[to..]))
}

fn number(t: &str) -> String {
    match t {
        "usize" => "size_t",
        "u8" => "uint8_t",
        "u32" => "uint32_t",
        "u64" => "uint64_t",
        "i32" => "int32_t",
        "i64" => "int64_t",
        _ => panic!("a type that is not passed as itself: {t}"),
    }
    .into()
}

/// `#[no_mangle] pub extern "C" fn name(a: T, ..) -> R`: a slice is passed as pointer and length.
fn in_rattle() -> Vec<Call> {
    let crates = Path::new(env!("CARGO_MANIFEST_DIR")).join("../crates");
    let names = fs::read_dir(crates)
        .expect("the crates")
        .map(|entry| entry.expect("a crate").file_name().into_string().expect("a name"));
    let text: String = names
        .filter(|name| name.starts_with("c_"))
        .map(|family| read(&format!("../crates/{family}/src/lib.rt")))
        .collect();
    let mut rest = text.as_str();
    let mut calls = Vec::new();
    while let Some((name, after)) = between(rest, "pub extern \"C\" fn ", "(") {
        let (list, after) = between(after, "(", ")").expect("parameters");
        let (result, after) = between(after, "->", "ensures").expect("a result");
        let mut parameters = Vec::new();
        for parameter in words(list).split(',').map(str::trim).filter(|p| !p.is_empty()) {
            let (name, t) = parameter.split_once(": ").expect("a name and a type");
            let (constant, target) = match t.strip_prefix("&mut ") {
                Some(target) => ("", target),
                None => match t.strip_prefix('&') {
                    Some(target) => ("const ", target),
                    None => {
                        parameters.push((number(t), name.into()));
                        continue;
                    }
                },
            };
            let inner = target.trim_start_matches('[').trim_end_matches(']');
            let (element, fixed) = inner.split_once(';').map_or((inner, false), |(e, _)| (e, true));
            parameters.push((format!("{constant}{} *", number(element)), name.into()));
            if target.starts_with('[') && !fixed {
                parameters.push(("size_t".into(), format!("{name}_len")));
            }
        }
        calls.push(Call {
            name: name.into(),
            parameters,
            result: number(result.trim()),
        });
        rest = after;
    }
    calls.sort();
    calls
}

/// The header without comments, directives, the enum and inline functions; and the enum's list.
fn header() -> (String, String) {
    let mut text = read("../include/meter.h");
    let cut = |text: &mut String, open: &str, close: &str| {
        let from = text.find(open)?;
        let to = from + text[from..].find(close).unwrap_or_else(|| panic!("{close:?} after {open:?}")) + close.len();
        let part = text[from..to].to_string();
        text.replace_range(from..to, "");
        Some(part)
    };
    while cut(&mut text, "/*", "*/").is_some() {}
    text = text
        .lines()
        .filter(|line| !line.starts_with('#'))
        .map(|line| format!("{line}\n"))
        .collect();
    while cut(&mut text, "static inline ", "\n}").is_some() {}
    let numbers = cut(&mut text, "enum meter_number {", "};").expect("the enum of the numbers");
    (text, numbers)
}

/// `uint32_t name(type name, ..);`
fn in_c() -> Vec<Call> {
    let (text, _) = header();
    let mut calls = Vec::new();
    for declaration in text.split(';').filter(|d| d.contains("meter_")) {
        let (head, list) = declaration.split_once('(').expect("parameters");
        let head = words(head.lines().last().expect("a line"));
        let (result, name) = head.rsplit_once(' ').expect("a result and a name");
        let mut parameters = Vec::new();
        for parameter in words(list.trim_end().trim_end_matches(')')).split(',') {
            let parameter = parameter.trim();
            let at = parameter.rfind(|c: char| !c.is_alphanumeric() && c != '_').expect("a type") + 1;
            parameters.push((parameter[..at].trim().into(), parameter[at..].into()));
        }
        calls.push(Call {
            name: name.into(),
            parameters,
            result: result.into(),
        });
    }
    calls.sort();
    calls
}

/// `pub fn name(a: T, ..) -> R;`
fn in_rust() -> Vec<Call> {
    let text = read("src/ffi.rs");
    let mut rest = text.as_str();
    let mut calls = Vec::new();
    while let Some((name, after)) = between(rest, "pub fn ", "(") {
        let (list, after) = between(after, "(", ")").expect("parameters");
        let (result, after) = between(after, "->", ";").expect("a result");
        let mut parameters = Vec::new();
        for parameter in words(list).split(',').map(str::trim).filter(|p| !p.is_empty()) {
            let (name, t) = parameter.split_once(": ").expect("a name and a type");
            let t = if let Some(t) = t.strip_prefix("*mut ") {
                format!("{} *", number(t))
            } else if let Some(t) = t.strip_prefix("*const ") {
                format!("const {} *", number(t))
            } else {
                number(t)
            };
            parameters.push((t, name.into()));
        }
        calls.push(Call {
            name: name.into(),
            parameters,
            result: number(result.trim()),
        });
        rest = after;
    }
    calls.sort();
    calls
}

#[test]
fn declared_alike() {
    let rattle = in_rattle();
    assert_eq!(rattle.len(), 20);
    assert_eq!(in_c(), rattle, "include/meter.h and crates/c_*");
    assert_eq!(in_rust(), rattle, "src/ffi.rs and crates/c_*");
}

/// `KeyLength` in C: `METER_KEY_LENGTH`.
fn name_in_c(reason: Reason) -> String {
    let mut name = String::from("METER");
    for c in format!("{reason:?}").chars() {
        if c.is_uppercase() {
            name.push('_');
        }
        name.extend(c.to_uppercase());
    }
    name
}

/// The enum has every reason by its name and number, and acceptance, and nothing else.
#[test]
fn numbered_alike() {
    let (_, numbers) = header();
    let (list, _) = between(&numbers, "{", "}").expect("a list");
    let in_c: Vec<(String, u32)> = list
        .split(',')
        .map(|entry| {
            let (name, number) = entry.split_once('=').expect("a name and a number");
            (name.trim().into(), number.trim().parse().expect("a number"))
        })
        .collect();
    let mut in_rust = vec![("METER_ACCEPTED".to_string(), 0)];
    in_rust.extend(
        (1..)
            .map_while(Reason::from_number)
            .take_while(|reason| !matches!(reason, Reason::Unknown(_)))
            .map(|reason| (name_in_c(reason), reason.number())),
    );
    assert_eq!(in_rust.len(), 14);
    assert_eq!(in_c, in_rust, "include/meter.h and Reason");
}

/// Nobody drops a plain call's answer unseen.
#[test]
fn answers_must_be_used() {
    let text = read("src/lib.rs");
    let mut marked = 0;
    for (before, line) in text.lines().zip(text.lines().skip(1)) {
        if line.starts_with("pub fn ") {
            assert!(before.starts_with("#[must_use"), "{line}");
            marked += 1;
        }
    }
    assert!(marked >= in_rust().len(), "{marked} functions");
}
