//! C takes parameters by place and a contract names them, so no proof sees two of one type that change places in a signature. Here the
//! three that describe the C functions are held against each other: the proved crate, the header, and this crate's declarations.
use std::fs;

const FUNCTIONS: [&str; 3] = ["merino_push", "merino_search", "merino_build"];

/// The text between the parentheses after `marker`, which stands there once.
fn parameters<'a>(text: &'a str, marker: &str) -> Option<&'a str> {
    let start = text.find(marker)? + marker.len();
    assert!(!text[start..].contains(marker), "{marker} stands there twice");
    let end = text[start..].find(')')?;
    Some(&text[start..start + end])
}

/// What a C function has for a parameter of the proved one: a slice crosses as a pointer and a number of elements.
fn crossed(parameter: &str) -> Vec<String> {
    let (name, kind) = parameter.split_once(": ").expect(parameter);
    let plain = |k: &str| match k {
        "u8" => "uint8_t",
        "u16" => "uint16_t",
        "u32" => "uint32_t",
        "u64" => "uint64_t",
        "usize" => "size_t",
        "f32" => "float",
        other => panic!("{other} does not cross"),
    };
    let element = |k: &str| plain(k.trim_start_matches('[').trim_end_matches(']')).to_string();
    let mut crossing = match (kind.strip_prefix("&mut "), kind.strip_prefix('&'), kind.strip_prefix("*mut "), kind.strip_prefix("*const ")) {
        (Some(k), ..) | (_, _, Some(k), _) => vec![format!("{} *{name}", element(k))],
        (_, Some(k), ..) | (.., Some(k)) => vec![format!("const {} *{name}", element(k))],
        _ => vec![format!("{} {name}", plain(kind))],
    };
    if kind.ends_with(']') {
        crossing.push(format!("size_t {name}_len"));
    }
    crossing
}

/// The parameters of each function as a C header writes them.
fn listed(text: &str, before: &str) -> Vec<Vec<String>> {
    let split = |p: &str| p.split(',').map(|x| x.split_whitespace().collect::<Vec<_>>().join(" ")).filter(|x| !x.is_empty()).collect::<Vec<_>>();
    let found = |f: &&str| parameters(text, &format!("{before}{f}(")).unwrap_or_else(|| panic!("{f} is missing"));
    FUNCTIONS.iter().map(|f| split(found(f))).map(|ps| if before == "uint64_t " { ps } else { ps.iter().flat_map(|p| crossed(p)).collect() }).collect()
}

#[test]
fn parameters_stand_in_one_order() {
    let root = format!("{}/../..", env!("CARGO_MANIFEST_DIR"));
    let read = |path: &str| fs::read_to_string(format!("{root}/{path}")).expect(path);
    let proved = listed(&(read("crates/merino/src/lib.rt") + &read("crates/merino/src/build.rt")), "extern \"C\" fn ");
    let header = listed(&read("include/merino.h"), "uint64_t ");
    let declared = listed(&read("host/merino/src/raw.rs"), "pub fn ");
    assert_eq!(proved, header);
    assert_eq!(proved, declared);
    assert!(proved.iter().all(|p| p.len() > 5));
}
