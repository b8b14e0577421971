//! The declarations beside the text of the header.

use super::*;
use std::{collections::HashMap, mem::offset_of};

const HEADER: &str = include_str!("../../../include/kickballbox.h");

/// Name and offset of each field, and the size.
type Layout = (Vec<(String, usize)>, usize);

/// The header without its comments.
fn code() -> String {
    let mut rest = HEADER;
    let mut code = String::new();
    while let Some((before, behind)) = rest.split_once("/*") {
        code += before;
        rest = behind.split_once("*/").expect("a comment without an end").1;
    }
    code + rest
}

/// The structs by name, laid out as C does: each field at a multiple of its alignment.
fn structs(code: &str) -> HashMap<String, Layout> {
    let mut sizes = HashMap::from([("uint64_t", (8, 8)), ("uint16_t", (2, 2)), ("uint8_t", (1, 1))]);
    let mut found = HashMap::new();
    for part in code.split("typedef struct {").skip(1) {
        let (body, behind) = part.split_once('}').unwrap();
        let name = behind.split_once(';').unwrap().0.trim();
        let (mut fields, mut end, mut widest) = (vec![], 0usize, 1);
        for field in body.split(';').map(str::trim).filter(|field| !field.is_empty()) {
            let (of, field) = field.split_once(' ').unwrap();
            let (field, count) = field.trim_end_matches(']').split_once('[').unwrap_or((field, "1"));
            let (size, align) = sizes[of];
            let at = end.next_multiple_of(align);
            fields.push((field.to_string(), at));
            end = at + size * count.parse::<usize>().unwrap();
            widest = widest.max(align);
        }
        let size = end.next_multiple_of(widest);
        sizes.insert(name, (size, widest));
        found.insert(name.to_string(), (fields, size));
    }
    found
}

macro_rules! layout {
    ($of:ty: $($($field:ident).+),*) => {
        (
            vec![$((stringify!($($field).+).rsplit('.').next().unwrap().trim().to_string(), offset_of!($of, $($field).+))),*],
            size_of::<$of>(),
        )
    };
}

#[test]
fn structs_as_declared() {
    let header = structs(&code());
    let ours: [(&str, Layout); 19] = [
        ("kb_position", layout!(Position: plays, depth, values)),
        ("kb_reading", layout!(Reading: answer.kind, answer.number, answer.place, n, m, t, universal, given, rules, domains)),
        ("kb_found", layout!(Found: answer.kind, answer.number, answer.place, found, rows)),
        ("kb_found_triples", layout!(FoundTriples: answer.kind, answer.number, answer.place, found, body, length)),
        ("kb_written", layout!(Written: answer.kind, answer.number, answer.place, length)),
        ("kb_answer", layout!(Answer: kind, number, place)),
        ("kb_moved", layout!(Moved: answer, position)),
        ("kb_opened", layout!(Opened: answer.kind, answer.number, answer.place, masks, counts)),
        ("kb_judgement", layout!(Judgement: answer.kind, answer.number, answer.place, won)),
        ("kb_marks", layout!(Marks: answer.kind, answer.number, answer.place, winning, domain)),
        ("kb_replayed", layout!(Replayed: marks, opened)),
        ("kb_ruled", layout!(Ruled: answer.kind, answer.number, answer.place, lost)),
        ("kb_checked", layout!(Checked: answer.kind, answer.number, answer.place, lost, variable)),
        ("kb_looked", layout!(Looked: answer.kind, answer.number, answer.place, lost, value, variable)),
        ("kb_values", layout!(Values: answer.kind, answer.number, answer.place, values)),
        ("kb_named_values", layout!(NamedValues: answer.kind, answer.number, answer.place, pure, impure, variables, values)),
        ("kb_searched", layout!(Searched: answer.kind, answer.number, answer.place, won, loss, conflict, list, leaf)),
        ("kb_formula_judgement", layout!(FormulaJudgement: answer.kind, answer.number, answer.place, won, length)),
        ("kb_group_list", layout!(GroupList: answer.kind, answer.number, answer.place, count, group)),
    ];
    for (name, layout) in &ours {
        assert_eq!(header[*name], *layout, "{name}");
    }
    assert_eq!(header.len(), ours.len());
}

/// Each function as `result name(argument types)`, in Rust's words.
fn header_functions(code: &str) -> Vec<String> {
    let start = code.find("uint64_t kb_interface").expect("the first function");
    let functions = code[start..].split(';').map(|f| f.split_whitespace().collect::<Vec<_>>().join(" "));
    functions.filter_map(|f| f.split_once('(').map(|(head, rest)| (head.to_string(), rest.to_string()))).map(named).collect()
}

fn named((head, rest): (String, String)) -> String {
    let (result, name) = head.split_once(' ').unwrap();
    let arguments = rest.trim_end_matches(')').split(", ").filter(|a| *a != "void").map(|argument| {
        let (of, name) = argument.rsplit_once(' ').unwrap();
        match (of.strip_prefix("const "), name.starts_with('*')) {
            (Some(of), _) => format!("*const {}", in_rust(of)),
            (None, true) => format!("*mut {}", in_rust(of)),
            (None, false) => in_rust(of),
        }
    });
    format!("{} {name}({})", in_rust(result), arguments.collect::<Vec<_>>().join(", "))
}

fn in_rust(of: &str) -> String {
    match of {
        "uint64_t" => "u64".into(),
        "uint16_t" => "u16".into(),
        "uint8_t" => "u8".into(),
        "size_t" => "usize".into(),
        "kb_session" => "Position".into(),
        _ => {
            let name = of.strip_prefix("kb_").unwrap_or_else(|| panic!("the type {of}"));
            name.split('_').map(|word| word[..1].to_uppercase() + &word[1..]).collect()
        }
    }
}

fn our_functions() -> Vec<String> {
    let declared = include_str!("../entries.rs").split_once("extern \"C\" {").unwrap().1.split_once("\n}").unwrap().0;
    let functions = declared.split(';').map(|f| f.split_whitespace().collect::<Vec<_>>().join(" "));
    let functions = functions.filter_map(|f| f.strip_prefix("pub fn ").map(str::to_string));
    functions
        .map(|f| {
            let (name, rest) = f.split_once('(').unwrap();
            let (arguments, result) = rest.split_once(") -> ").unwrap();
            let arguments = arguments.split(',').filter_map(|a| a.split_once(": ")).map(|(_, of)| of.trim());
            format!("{result} {name}({})", arguments.collect::<Vec<_>>().join(", "))
        })
        .collect()
}

#[test]
fn functions_as_declared() {
    let header = header_functions(&code());
    assert_eq!(header.len(), 30);
    assert_eq!(header, our_functions());
}

#[test]
fn constants_as_declared() {
    let constant = |name: &str| -> u64 {
        let line = HEADER.lines().find_map(|line| line.strip_prefix("#define ")?.strip_prefix(name)?.strip_prefix(' '));
        line.unwrap_or_else(|| panic!("{name} is missing")).trim().parse().unwrap()
    };
    assert_eq!(constant("KB_INTERFACE"), crate::INTERFACE);
    assert_eq!(constant("KB_STACK"), crate::STACK as u64);
    assert_eq!(constant("KB_FORMULA_STACK"), crate::FORMULA_STACK as u64);
    assert_eq!(constant("KB_TEXT"), crate::TEXT as u64);
    assert_eq!(constant("KB_ROOM"), crate::ROOM as u64);
    assert_eq!(constant("KB_FILE"), crate::FILE as u64);
    assert_eq!(constant("KB_FORMULA"), crate::FORMULA as u64);
    assert_eq!([constant("KB_FINISHED"), constant("KB_REFUSED"), constant("KB_REFUSED_AT")], [0, 1, 2]);
}
