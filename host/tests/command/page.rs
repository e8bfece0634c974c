//! README.md and docs/HOST.md say what the command prints: each of their commands is run, in order, and the output
//! compared.
use super::room::Room;
use std::fs;
use std::path::Path;

/// A command of a page, and what stands below it.
struct Shown {
    line: String,
    output: String,
}

// A page of the project.
fn page(name: &str) -> String {
    let path = Path::new(env!("CARGO_MANIFEST_DIR")).join("..").join(name);
    fs::read_to_string(&path).unwrap_or_else(|error| panic!("{name}: {error}"))
}

// The commands in a page: in a block of the console, a line that begins with `$ `, and the lines up to the next one.
fn shown(page: &str) -> Vec<Shown> {
    let mut all: Vec<Shown> = Vec::new();
    let mut inside = false;
    for line in page.lines() {
        if line.starts_with("```") {
            inside = line == "```console";
        } else if let (true, Some(command)) = (inside, line.strip_prefix("$ ")) {
            all.push(Shown { line: command.to_string(), output: String::new() });
        } else if inside {
            let last = all.last_mut().expect("a block begins with a command");
            last.output.push_str(line);
            last.output.push('\n');
        }
    }
    all
}

// Runs every command of a page in one room, and compares.
fn compare(name: &str, page: &str) {
    let all = shown(page);
    assert!(all.len() >= 6, "{name}: take, holes, request, join and save are walked through");
    let room = Room::new();
    for Shown { line, output } in all {
        let ran = room.shell(&line);
        let mut printed = ran.text;
        if ran.status != 0 {
            printed.push_str(&format!("[exit status {}]\n", ran.status));
        }
        assert_eq!(printed, output, "{name}: $ {line}");
    }
}

#[test]
fn the_page_shows_what_the_command_prints() {
    compare("docs/HOST.md", &page("docs/HOST.md"));
}

#[test]
fn the_first_page_shows_what_the_command_prints() {
    // in the project's first folder the samples stand in the host's, and the command has no place on the PATH
    let page = page("README.md").replace("host/samples/", "samples/").replace("$ ./thoweldeck ", "$ thoweldeck ");
    compare("README.md", &page);
}

#[test]
fn the_first_page_is_short() {
    let words = page("README.md").split_whitespace().count();
    assert!(words < 900, "README.md has {words} words");
}

// The targets of a page's links that are files of the project: what stands between `](` and `)`.
fn links(page: &str) -> Vec<&str> {
    let targets = page.split("](").skip(1).filter_map(|rest| rest.split(')').next());
    targets.filter(|target| !target.contains("://")).map(|target| target.split('#').next().unwrap_or("")).collect()
}

#[test]
fn every_link_leads_to_a_file() {
    let project = Path::new(env!("CARGO_MANIFEST_DIR")).join("..");
    let mut found = 0;
    for name in
        ["README.md", "docs/HOST.md", "docs/ARCHITECTURE.md", "docs/RULES.md", "docs/PROMISES.md", "docs/CASES.md"]
    {
        let folder = project.join(name);
        let folder = folder.parent().expect("a folder");
        for link in links(&page(name)) {
            assert!(folder.join(link).exists(), "{name}: {link}");
            found += 1;
        }
    }
    assert!(found > 20, "the pages have links: {found}");
}

#[test]
fn the_papers_have_their_names_where_they_are_met() {
    for name in [
        "docs/HOST.md",
        "docs/ARCHITECTURE.md",
        "docs/DECISIONS.md",
        "docs/RULES.md",
        "docs/PROMISES.md",
        "docs/CASES.md",
        "host/samples/README.md",
    ] {
        let page = page(name);
        let met = ["01", "000", "002", "thesis"].iter().filter_map(|paper| first(&page, paper)).min().expect("a paper");
        let named = ["Halliday", "\"The papers\""].iter().filter_map(|text| page.find(text)).min();
        let line = |place: usize| page[..place].lines().count();
        let named = named.unwrap_or_else(|| panic!("{name}: the papers have no name"));
        assert!(line(named) <= line(met) + 6, "{name}: met in line {}, named in line {}", line(met), line(named));
    }
}

// Where a word first stands by itself in a page, outside of what a command prints.
fn first(page: &str, word: &str) -> Option<usize> {
    let blocks = page.split("```").scan(0, |place, block| {
        let start = *place;
        *place += block.len() + 3;
        Some((start, block))
    });
    let is_part = |c: Option<char>| c.map_or(false, |c| c.is_alphanumeric() || c == '-' || c == '.' || c == ',');
    blocks.step_by(2).find_map(|(start, block)| {
        let stands_alone = |(place, _): &(usize, &str)| {
            !is_part(block[..*place].chars().next_back())
                && !block[place + word.len()..].chars().next().map_or(false, |c| c.is_alphanumeric())
        };
        block.match_indices(word).find(stands_alone).map(|(place, _)| start + place)
    })
}

#[test]
fn the_page_shows_the_example_as_it_is() {
    let host = Path::new(env!("CARGO_MANIFEST_DIR"));
    let example = fs::read_to_string(host.join("examples/station.rs")).expect("the example");
    let page = page("docs/HOST.md");
    assert!(page.contains(&format!("```rust\n{example}```\n")), "docs/HOST.md shows host/examples/station.rs");
}
