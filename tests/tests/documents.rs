//! The documents name what is there: every link leads to a file, every theorem of README is a law, and every row of the table in
//! ARCHITECTURE names definitions, code, promises and proofs that exist.

use std::fs;
use std::path::{Path, PathBuf};

fn root() -> PathBuf {
    Path::new(env!("CARGO_MANIFEST_DIR"))
        .parent()
        .unwrap()
        .to_path_buf()
}

fn read(path: &Path) -> String {
    fs::read_to_string(path).unwrap_or_else(|e| panic!("{}: {e}", path.display()))
}

/// The files of a folder whose names end so, and of the folders in it, but for what a check leaves in out/.
fn files_below(folder: &Path, ending: &str) -> Vec<PathBuf> {
    let mut found = Vec::new();
    for entry in fs::read_dir(folder).unwrap() {
        let path = entry.unwrap().path();
        if path.ends_with("out") {
            continue;
        }
        if path.is_dir() {
            found.extend(files_below(&path, ending));
        } else if path.to_string_lossy().ends_with(ending) {
            found.push(path);
        }
    }
    found
}

/// The crates' specs/Promise*.antt, or their proofs/Laws.antt.
fn of_crates(wanted: impl Fn(&str) -> bool) -> String {
    let mut text = String::new();
    for path in files_below(&root().join("crates"), ".antt") {
        let name = path.to_string_lossy().into_owned();
        if !name.contains("/must-fail/") && wanted(&name) {
            text.push_str(&read(&path));
        }
    }
    text
}

/// Whether a file declares a public name.
fn declares(text: &str, name: &str) -> bool {
    text.lines().any(|line| {
        let line = line
            .trim_start_matches("unfoldable ")
            .trim_start_matches("abbrev ");
        line.strip_prefix("pub ")
            .is_some_and(|rest| rest.trim_start_matches("record ").split(' ').next() == Some(name))
    })
}

/// What stands between backquotes.
fn quoted(cell: &str) -> Vec<&str> {
    cell.split('`').skip(1).step_by(2).collect()
}

/// The cells of a table's row.
fn cells(line: &str) -> Vec<&str> {
    line.trim_matches('|').split(" | ").map(str::trim).collect()
}

/// The rows below a table's head.
fn rows<'a>(text: &'a str, head: &str) -> Vec<&'a str> {
    text.lines()
        .skip_while(|line| *line != head)
        .skip(2)
        .take_while(|line| line.starts_with('|'))
        .collect()
}

/// SequenceSent as sequence_sent, SentWithin16 as sent_within_16.
fn law_name(promise: &str) -> String {
    let mut name = String::new();
    let mut digit = false;
    for c in promise.chars() {
        let starts = c.is_uppercase() || c.is_ascii_digit() && !digit;
        if starts && !name.is_empty() {
            name.push('_');
        }
        digit = c.is_ascii_digit();
        name.extend(c.to_lowercase());
    }
    name
}

#[test]
fn links_lead_to_files() {
    let mut documents = vec![root().join("README.md"), root().join("CHANGELOG.md")];
    documents.extend(files_below(&root().join("docs"), ".md"));
    let mut links = 0;
    for document in documents {
        let text = read(&document);
        for part in text.split("](").skip(1) {
            let target = part.split(')').next().unwrap();
            let path = target.split('#').next().unwrap();
            if path.is_empty() || path.contains("://") {
                continue;
            }
            links += 1;
            let file = document.parent().unwrap().join(path);
            assert!(file.exists(), "{}: {target}", document.display());
        }
    }
    assert!(links > 60, "only {links} links found");
}

#[test]
fn theorems_of_readme_are_laws() {
    let laws = of_crates(|name| name.contains("/proofs/"));
    let text = read(&root().join("README.md"));
    let mut theorems = 0;
    let mut in_table = false;
    for line in text.lines() {
        in_table = line == "| In words | Theorem |" || in_table && line.starts_with('|');
        if !in_table {
            continue;
        }
        let row = cells(line);
        let theorem = row.last().unwrap();
        if theorem.contains("](") || !theorem.starts_with('`') {
            continue;
        }
        for name in quoted(theorem) {
            theorems += 1;
            assert!(declares(&laws, name), "README: no law {name}");
        }
    }
    assert!(theorems > 70, "only {theorems} theorems found");
}

#[test]
fn rules_are_found_in_one_step() {
    let text = read(&root().join("docs/ARCHITECTURE.md"));
    let promises = of_crates(|name| name.contains("/specs/Promise"));
    let laws = of_crates(|name| name.ends_with("/proofs/Laws.antt"));
    let rows = rows(&text, "| Rule | Definition | Code | Promise | Proof |");
    assert!(rows.len() > 15, "only {} rows found", rows.len());
    for row in rows {
        let row = cells(row);
        assert_eq!(row.len(), 5, "{row:?}");
        for column in [1, 2, 4] {
            let mut folder = PathBuf::new();
            for name in quoted(row[column]) {
                let path = if name.starts_with(char::is_lowercase) && name.contains('/') {
                    let path = root().join("crates").join(name);
                    folder = path.parent().unwrap().to_path_buf();
                    path
                } else {
                    folder.join(name)
                };
                let file = path.with_extension("antt");
                assert!(path.exists() || file.exists(), "{}: {name}", row[0]);
            }
        }
        for name in quoted(row[3]) {
            if name.contains('/') {
                continue;
            }
            assert!(declares(&promises, name), "{}: no promise {name}", row[0]);
            let law = law_name(name);
            let marked = format!("{law}_lem");
            let found = declares(&laws, &law) || declares(&laws, &marked);
            assert!(found, "{}: no law {law}", row[0]);
        }
    }
}

/// The modules that a Lib.antt, or a folder's file, declares, in its order.
fn modules(path: &Path) -> Vec<String> {
    read(path)
        .lines()
        .filter_map(|line| line.strip_prefix("pub mod ").or(line.strip_prefix("mod ")))
        .map(|rest| rest.split(' ').next().unwrap().to_string())
        .collect()
}

/// A folder of laws cites only those that Lib.antt has before it, and a file in it only those before it.
#[test]
fn laws_cite_those_before() {
    let mut found = 0;
    for names in [
        &["lane_rules"][..],
        &["lane_sender", "lane_modes", "lane"][..],
    ] {
        let mut of_these = 0;
        for name in names {
            let files = laws_in_order(name);
            assert!(files > 0, "{name}: no files found");
            of_these += files;
        }
        assert!(of_these > 10, "{names:?}: only {of_these} files found");
        found += of_these;
    }
    assert!(found > 75, "only {found} files found");
}

/// How many files of laws a crate's folders have, each of which cites only those before it.
fn laws_in_order(name: &str) -> usize {
    let proofs = root().join("crates").join(name).join("proofs");
    let own = format!("use Rattle.{name}.proofs.");
    let folders = modules(&proofs.join("Lib.antt"));
    let mut before: Vec<String> = Vec::new();
    for folder in folders.iter().filter(|f| proofs.join(f).is_dir()) {
        for file in modules(&proofs.join(folder).with_extension("antt")) {
            let path = proofs.join(folder).join(&file).with_extension("antt");
            for line in read(&path).lines() {
                let Some(cited) = line.strip_prefix(&own) else {
                    continue;
                };
                let cited = cited.split(' ').next().unwrap();
                let law = cited.split('.').take(2).collect::<Vec<_>>().join(".");
                assert!(before.contains(&law), "{folder}/{file} cites {law}");
            }
            before.push(format!("{folder}.{file}"));
        }
    }
    before.len()
}
