//! docs/RULES.md beside the library: every name on the page is defined in the file that it is said to stand in, and every
//! public definition of `specs/` stands on the page. Both are read as texts, so the library need not be built for it.
//!
//! In a row's second to fourth cell all code is a citation: `crate`, `specs/File`: `name`, `name`; `proofs/File`: `name`. A
//! comma stands between a crate and its file. The crate and the file stay the same until another is named; each cell
//! begins anew. `run: ` stands before a program, and names behind it are names of its cases.
use std::collections::{BTreeMap, BTreeSet};
use std::fs;
use std::path::Path;

/// 01's sections in their order. Behind them the page has what is of our own arrangement.
const SECTIONS: [&str; 11] = [
    "What the station does",
    "Frame",
    "File header",
    "Reception",
    "Fill request",
    "Record",
    "Numbered reasons",
    "Both sides of the line",
    "What students try",
    "Where each language form belongs",
    "How far a promise goes",
];

/// Files of `specs/` that need not stand on the page: private functions promise each other what is there, and no promise
/// of a public function cites it.
const PRIVATE: [&str; 6] = [
    "remainder/specs/Inner.antt",
    "positions/specs/Inner.antt",
    "header/specs/Notes.antt",
    "runs/specs/Inner.antt",
    "request/specs/Inner.antt",
    "record/specs/Inner.antt",
];

/// The folders of a crate that are cited, and how their files end.
const FOLDERS: [(&str, &str); 4] = [("specs", "antt"), ("proofs", "antt"), ("src", "rt"), ("must-fail", "edit")];

/// The sources by their paths in `crates/`.
type Sources = BTreeMap<String, String>;

/// A row of a table: its section, its line on the page, and its cells.
struct Row {
    section: String,
    line: usize,
    cells: Vec<String>,
}

/// A name and the file that it stands in; where there is no name, the file itself.
#[derive(Debug, PartialEq)]
struct Citation {
    path: String,
    name: Option<String>,
}

/// The public names of a file of definitions or proofs: what it defines, and fields and constructors beside it.
#[derive(Default)]
struct Names {
    defined: BTreeSet<String>,
    members: BTreeSet<String>,
}

// The sections of a page.
fn headings(page: &str) -> Vec<&str> {
    page.lines().filter_map(|line| line.strip_prefix("## ")).map(str::trim).collect()
}

// The line under the names of a table's columns.
fn is_rule(line: &str) -> bool {
    line.starts_with('|') && line.chars().all(|c| "|-: ".contains(c))
}

// The rows of all tables, without the names of their columns.
fn rows(page: &str) -> Vec<Row> {
    let lines: Vec<&str> = page.lines().collect();
    let mut section = String::new();
    let mut rows = Vec::new();
    for (index, line) in lines.iter().enumerate() {
        if let Some(heading) = line.strip_prefix("## ") {
            section = heading.trim().to_string();
        }
        let names = lines.get(index + 1).map_or(false, |next| is_rule(next));
        if line.starts_with('|') && !is_rule(line) && !names {
            let inside = line.trim().trim_start_matches('|').trim_end_matches('|');
            let cells = inside.split('|').map(|cell| cell.trim().to_string()).collect();
            rows.push(Row { section: section.clone(), line: index + 1, cells });
        }
    }
    rows
}

// The path of a file that a page cites as `folder/File`, in a crate; none where the text is a name.
fn path(part: &str, file: &str) -> Option<String> {
    let (folder, _) = file.split_once('/')?;
    let (_, ending) = FOLDERS.iter().find(|(one, _)| *one == folder)?;
    Some(format!("{part}/{file}.{ending}"))
}

// The citations of a cell, or what cannot be followed in it.
fn citations(cell: &str) -> Result<Vec<Citation>, String> {
    let parts: Vec<&str> = cell.split('`').collect();
    if parts.len() % 2 == 0 {
        return Err("a ` has no other that ends it".to_string());
    }
    let (mut part, mut file) = (None, None);
    let mut cited = Vec::new();
    for index in (1..parts.len()).step_by(2) {
        let code = parts[index];
        if parts[index - 1].ends_with("run: ") {
            cited.push(Citation { path: format!("{code}/stdout"), name: None });
            (part, file) = (Some(code), Some(format!("{code}/stdin")));
        } else if let Some(path) = path(part.unwrap_or(""), code) {
            part.ok_or(format!("no crate stands before `{code}`"))?;
            cited.push(Citation { path: path.clone(), name: None });
            file = Some(path);
        } else if parts[index + 1] == ", " && parts.get(index + 2).map_or(false, |next| path(code, next).is_some()) {
            (part, file) = (Some(code), None);
        } else {
            let path = file.clone().ok_or(format!("no file stands before `{code}`"))?;
            cited.push(Citation { path, name: Some(code.to_string()) });
        }
    }
    Ok(cited)
}

// How a line of definitions begins: whether it is public, and its first two words. `pub` stands first, or behind how the
// definition may be unfolded.
fn beginning(code: &str) -> (bool, &str, &str) {
    let words: Vec<&str> = code.split_whitespace().collect();
    let public = words.iter().take(2).position(|word| *word == "pub");
    let mut words = words.into_iter().skip(public.map_or(0, |place| place + 1));
    (public.is_some(), words.next().unwrap_or(""), words.next().unwrap_or(""))
}

// The names of a file of definitions or proofs. A line that is less indented ends a record, a data type and a module; the
// lines of a module are definitions as any other.
fn names(source: &str) -> Names {
    let mut names = Names::default();
    let mut blocks: Vec<(usize, &str)> = Vec::new();
    for line in source.lines() {
        let code = line.split("--").next().unwrap_or("");
        if code.trim().is_empty() {
            continue;
        }
        let indent = code.len() - code.trim_start().len();
        while blocks.last().map_or(false, |(outer, _)| *outer >= indent) {
            blocks.pop();
        }
        let inside = blocks.last().map_or("", |(_, kind)| *kind);
        let (public, word, next) = beginning(code);
        match word {
            "record" | "data" => {
                if public {
                    names.defined.insert(next.to_string());
                }
                blocks.push((indent, word));
            }
            "module" => blocks.push((indent, word)),
            _ if next == ":" && (inside == "data" || inside == "record" && public) => {
                names.members.insert(word.to_string());
            }
            _ if public && (next == ":" || next.is_empty()) => {
                names.defined.insert(word.to_string());
            }
            _ => {}
        }
    }
    names
}

// What a source of code names: its functions, constants and types.
fn items(source: &str) -> BTreeSet<String> {
    let mut items = BTreeSet::new();
    for line in source.lines().map(|line| line.split("//").next().unwrap_or("")) {
        let words: Vec<&str> = line.split(|c: char| !c.is_alphanumeric() && c != '_').collect();
        for pair in words.windows(2).filter(|pair| ["fn", "const", "struct", "enum"].contains(&pair[0])) {
            items.insert(pair[1].to_string());
        }
    }
    items
}

// The names of a program's cases: what stands before the colon.
fn cases(lines: &str) -> BTreeSet<String> {
    lines.lines().filter_map(|line| line.split_once(':')).map(|(name, _)| name.to_string()).collect()
}

// The names that can be cited in each file; a file without any can be cited itself.
fn known(sources: &Sources) -> BTreeMap<&str, BTreeSet<String>> {
    let named = |path: &str, source: &str| {
        if path.ends_with(".antt") {
            let Names { mut defined, members } = names(source);
            defined.extend(members);
            defined
        } else if path.ends_with(".rt") {
            items(source)
        } else if path.ends_with("/stdin") {
            cases(source)
        } else {
            BTreeSet::new()
        }
    };
    sources.iter().map(|(path, source)| (path.as_str(), named(path, source))).collect()
}

// What is wrong with the citations of a page, and all that it cites.
fn followed(page: &str, sources: &Sources) -> (Vec<String>, Vec<Citation>) {
    let known = known(sources);
    let (mut faults, mut all) = (Vec::new(), Vec::new());
    for row in rows(page) {
        let mut told = Vec::new();
        if row.cells.len() != 4 {
            told.push("a row has a rule, what says it, what carries it, and cases".to_string());
        }
        for cell in row.cells.iter().skip(1) {
            match citations(cell) {
                Err(fault) => told.push(fault),
                Ok(cited) => {
                    told.extend(cited.iter().filter_map(|one| fault(one, &known)));
                    all.extend(cited);
                }
            }
        }
        faults.extend(told.iter().map(|fault| format!("line {}, {}: {fault}", row.line, row.cells[0])));
    }
    (faults, all)
}

// What is wrong with a citation.
fn fault(cited: &Citation, known: &BTreeMap<&str, BTreeSet<String>>) -> Option<String> {
    let path = &cited.path;
    match (known.get(path.as_str()), &cited.name) {
        (None, _) => Some(format!("there is no crates/{path}")),
        (Some(names), Some(name)) if !names.contains(name) => Some(format!("no `{name}` in crates/{path}")),
        _ => None,
    }
}

// The public definitions of every crate's `specs/`, each with its file.
fn defined(sources: &Sources) -> Vec<(String, String)> {
    let files = sources.iter().filter(|(path, _)| path.split('/').nth(1) == Some("specs"));
    files
        .filter(|(path, _)| !PRIVATE.contains(&path.as_str()))
        .flat_map(|(path, source)| names(source).defined.into_iter().map(move |name| (path.clone(), name)))
        .collect()
}

// The public definitions that stand in no row.
fn missing(sources: &Sources, cited: &[Citation]) -> Vec<String> {
    let all: BTreeSet<(&str, &str)> =
        cited.iter().filter_map(|one| Some((one.path.as_str(), one.name.as_deref()?))).collect();
    let left = defined(sources).into_iter().filter(|(path, name)| !all.contains(&(path.as_str(), name.as_str())));
    left.map(|(path, name)| format!("`{name}` of crates/{path} stands in no row")).collect()
}

// What the page lacks of 01's arrangement: its sections in their order, rows in each, and a row for each reason.
fn arranged(page: &str) -> Vec<String> {
    let (headings, rows) = (headings(page), rows(page));
    let mut faults = Vec::new();
    for (index, section) in SECTIONS.iter().enumerate() {
        if headings.get(index) != Some(section) {
            faults.push(format!("\"{section}\" is not section {}", index + 1));
        }
        if !rows.iter().any(|row| row.section == *section) {
            faults.push(format!("\"{section}\" has no rows"));
        }
    }
    let reasons: Vec<&Row> = rows.iter().filter(|row| row.section == "Numbered reasons").collect();
    for number in 1..=15 {
        if !reasons.iter().any(|row| row.cells[0].starts_with(&format!("{number}: "))) {
            faults.push(format!("reason {number} has no row"));
        }
    }
    faults
}

// All sources in a folder, below a name; what a check leaves in `out` is none.
fn read(folder: &Path, below: &str, sources: &mut Sources) {
    for file in fs::read_dir(folder).expect("a folder of sources") {
        let path = file.expect("a source").path();
        let name = format!("{below}{}", path.file_name().expect("a name").to_string_lossy());
        if path.is_dir() && name.ends_with("/out") {
            continue;
        }
        if path.is_dir() {
            read(&path, &format!("{name}/"), sources);
        } else {
            sources.insert(name, String::from_utf8_lossy(&fs::read(&path).expect("a source")).into_owned());
        }
    }
}

// The page, and the sources that it cites.
fn library() -> (String, Sources) {
    let first = Path::new(env!("CARGO_MANIFEST_DIR")).join("..");
    let page = fs::read_to_string(first.join("docs/RULES.md")).expect("the page of the rules");
    let mut sources = Sources::new();
    read(&first.join("crates"), "", &mut sources);
    (page, sources)
}

#[test]
fn every_name_on_the_page_stands_where_it_says() {
    let (page, sources) = library();
    let (faults, cited) = followed(&page, &sources);
    assert!(faults.is_empty(), "docs/RULES.md:\n{}", faults.join("\n"));
    assert!(cited.len() >= 1500, "the page has citations: {}", cited.len());
}

#[test]
fn every_public_definition_stands_on_the_page() {
    let (page, sources) = library();
    let missing = missing(&sources, &followed(&page, &sources).1);
    assert!(missing.is_empty(), "docs/RULES.md:\n{}", missing.join("\n"));
    let count = defined(&sources).len();
    assert!(count >= 400, "the library has definitions: {count}");
}

#[test]
fn the_page_has_the_arrangement_of_the_rules() {
    let (page, sources) = library();
    let faults = arranged(&page);
    assert!(faults.is_empty(), "docs/RULES.md:\n{}", faults.join("\n"));
    let count = rows(&page).len();
    assert!(count >= 150, "the page has rows: {count}");
    for private in PRIVATE {
        assert!(sources.contains_key(private), "there is no crates/{private}");
    }
}

// What the checks above do with a page and sources of a few lines.
const ADDRESS: &str = "-- abbrev pub said : in a comment
abbrev pub isName : Bool
isName = true

unfoldable pub wellFormed
    : Bool

pub record Says (s : List) : Type 0 where
  pub right : Bool

pub data Answer : Type 0 where
  accepted : Answer

module _ (s : List) where
  pub within : Bool

abbrev hidden : Bool
";

fn small() -> Sources {
    let sources = [
        ("ax25/specs/Address.antt", ADDRESS),
        ("ax25/specs/Lib.antt", "pub mod Address\n"),
        ("runs/specs/Inner.antt", "abbrev pub onSide : Bool\n"),
        ("ax25/src/lib.rt", "// fn unsaid\npub const FILE: u8 = 0xBB;\npub extern \"C\" fn read(s: &[u8]) -> u8\n"),
        ("ax25/must-fail/lower_case.edit", ""),
        ("cases/stdin", "Opening\nopen L 0:l0=7\n"),
        ("cases/stdout", ""),
    ];
    sources.iter().map(|(path, source)| (path.to_string(), source.to_string())).collect()
}

fn page(says: &str) -> String {
    format!("# Rules\n\n## Frame\n\n| Rule | Says it | Carries it | Cases |\n|-|-|-|-|\n| a name | {says} | – | – |\n")
}

fn faults(says: &str) -> Vec<String> {
    let row = "line 7, a name: ";
    let (faults, _) = followed(&page(says), &small());
    faults.iter().map(|fault| fault.strip_prefix(row).expect("the row is named").to_string()).collect()
}

#[test]
fn names_that_stand_where_they_are_said_to_are_found() {
    assert_eq!(
        faults("`ax25`, `specs/Address`: `isName`, `wellFormed`; `Says` with `right`, `accepted`, `within`"),
        [""; 0]
    );
    assert_eq!(faults("`ax25`, `src/lib`: `read`, `FILE`; `must-fail/lower_case`; run: `cases`: `open L 0`"), [""; 0]);
}

#[test]
fn a_wrong_name_is_told_and_so_are_all() {
    for wrong in ["isname", "said", "hidden", "Address", "within_"] {
        let said = format!("no `{wrong}` in crates/ax25/specs/Address.antt");
        assert_eq!(faults(&format!("`ax25`, `specs/Address`: `isName`, `{wrong}`")), [said]);
    }
    assert_eq!(faults("`ax25`, `specs/Address`: `one`, `two`").len(), 2);
    assert_eq!(faults("`ax25`, `src/lib`: `unsaid`"), ["no `unsaid` in crates/ax25/src/lib.rt"]);
    assert_eq!(faults("run: `cases`: `open L 1`, `Opening`").len(), 2);
}

#[test]
fn a_wrong_file_is_told() {
    assert_eq!(faults("`ax25`, `specs/Adress`: `isName`")[0], "there is no crates/ax25/specs/Adress.antt");
    assert_eq!(faults("`frame`, `specs/Address`: `isName`")[0], "there is no crates/frame/specs/Address.antt");
    assert_eq!(faults("`ax25`, `must-fail/upper_case`"), ["there is no crates/ax25/must-fail/upper_case.edit"]);
    assert_eq!(faults("run: `case`"), ["there is no crates/case/stdout"]);
}

#[test]
fn what_cannot_be_followed_is_told() {
    assert_eq!(faults("`isName`"), ["no file stands before `isName`"]);
    assert_eq!(faults("`specs/Address`: `isName`"), ["no crate stands before `specs/Address`"]);
    assert_eq!(faults("`ax25`, `specs/Address`: `isName"), ["a ` has no other that ends it"]);
    assert_eq!(faults("`ax25`, `specs/Address`: `isName` | one cell more").len(), 1);
    // a file holds in its own cell alone
    assert_eq!(faults("`ax25`, `specs/Address`: `isName` | `wellFormed` | –").len(), 2);
}

#[test]
fn a_definition_that_stands_in_no_row_is_told() {
    let sources = small();
    let left = |says: &str| missing(&sources, &followed(&page(says), &sources).1);
    let all = "`ax25`, `specs/Address`: `isName`, `wellFormed`, `Says`, `Answer`, `within`";
    assert_eq!(left(all), [""; 0]);
    let one = left(&all.replace("`wellFormed`, ", ""));
    assert_eq!(one, ["`wellFormed` of crates/ax25/specs/Address.antt stands in no row"]);
    assert_eq!(left("–").len(), 5);
    // nor does the same name of another file count
    assert_eq!(left(&all.replace("`isName`, ", "`isName`; `specs/Lib`: ")).len(), 4);
}

#[test]
fn what_the_page_lacks_of_the_arrangement_is_told() {
    let row = "\n| Rule | Says it | Carries it | Cases |\n|-|-|-|-|\n| a rule | – | – | – |\n";
    let reasons: String = (1..=15).map(|number| format!("| {number}: a reason | – | – | – |\n")).collect();
    let section =
        |name: &str| format!("## {name}\n{row}{}", if name == "Numbered reasons" { reasons.as_str() } else { "" });
    let whole: String = SECTIONS.iter().map(|name| section(name)).collect();
    assert_eq!(arranged(&whole), [""; 0]);
    assert_eq!(arranged(&whole.replace("| 14: a", "| a")), ["reason 14 has no row"]);
    let bare = whole.replace(&section("Record"), "## Record\n");
    assert_eq!(arranged(&bare), ["\"Record\" has no rows"]);
    let exchanged = whole.replace("## Frame\n", "## Record\n");
    assert_eq!(arranged(&exchanged), ["\"Frame\" is not section 2", "\"Frame\" has no rows"]);
    // what stands at another place than in a row of the reasons counts for none
    let elsewhere = whole.replace(&reasons, "") + &reasons;
    assert_eq!(arranged(&elsewhere).len(), 15);
}
