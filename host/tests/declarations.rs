//! What `boundary` declares is what the proved library exports: every function, its parameters in their order, its
//! types. Nothing else compares the two, so the sources are.
use std::fs;
use std::path::Path;

/// A function: its name, its parameters with their types, and what it returns.
type Function = (String, Vec<(String, String)>, String);

fn read(path: &str) -> String {
    let path = Path::new(env!("CARGO_MANIFEST_DIR")).join(path);
    fs::read_to_string(&path).unwrap_or_else(|error| panic!("{}: {error}", path.display()))
}

// The functions whose declarations begin with a text in a source.
fn functions(source: &str, beginning: &str) -> Vec<Function> {
    source.split(beginning).skip(1).map(function).collect()
}

// The function whose declaration a text goes on with, up to its type.
fn function(text: &str) -> Function {
    let (name, rest) = text.split_once('(').expect("parameters");
    let (parameters, rest) = rest.split_once(')').expect("the parameters' end");
    let after = rest.split_once("->").expect("a type").1;
    let returned: String = after.trim_start().chars().take_while(|c| c.is_alphanumeric()).collect();
    let parameters = parameters.split(',').map(str::trim).filter(|one| !one.is_empty()).map(parameter).collect();
    (name.trim().to_string(), parameters, returned)
}

fn parameter(text: &str) -> (String, String) {
    let (name, kind) = text.split_once(':').expect("a parameter's type");
    (name.trim().to_string(), kind.trim().to_string())
}

// What a parameter is in C: a slice is a pointer and a length.
fn passed((name, kind): (String, String)) -> Vec<(String, String)> {
    let length = (format!("{name}_size"), "usize".to_string());
    match kind.as_str() {
        "&[u8]" => vec![(name, "*const u8".to_string()), length],
        "&mut [u8]" => vec![(name, "*mut u8".to_string()), length],
        _ => vec![(name, kind)],
    }
}

#[test]
fn every_exported_function_is_declared_as_it_is() {
    let mut exported = Vec::new();
    let sources = Path::new(env!("CARGO_MANIFEST_DIR")).join("../crates/station_c/src");
    for file in fs::read_dir(&sources).expect("the sources of the exports") {
        let source = fs::read_to_string(file.expect("a source").path()).expect("a source");
        for (name, parameters, returned) in functions(&source, "pub extern \"C\" fn ") {
            exported.push((name, parameters.into_iter().flat_map(passed).collect(), returned));
        }
    }
    let source = read("src/boundary.rs");
    let block = source.split_once("extern \"C\" {").expect("the declarations").1;
    let block = block.split_once("\n}\n").expect("their end").0;
    let mut declared = functions(block, "fn ");
    exported.sort();
    declared.sort();
    assert!(exported.len() >= 5, "the functions to open, take, join, list and save are exported");
    assert_eq!(exported, declared);
}
