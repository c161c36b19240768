//! What the documents show, run: in each `console` block the commands, whose output has to be what
//! stands after them, and each C program, which has to print what the sentence after it says.
//! (Their Rust programs are documentation tests of the crate `plumethrift`.)

#![forbid(unsafe_code)]

use std::env;
use std::fs;
use std::path::{Path, PathBuf};
use std::process::Command;

const PAGES: [&str; 3] = ["README.md", "docs/READINGS.md", "docs/COMMAND-LINE.md"];

fn root() -> PathBuf {
    let root = Path::new(env!("CARGO_MANIFEST_DIR")).join("../..");
    root.canonicalize().expect("the repository")
}

fn page(name: &str) -> String {
    fs::read_to_string(root().join(name)).expect(name)
}

/// The fenced blocks of a language, each with the text after it.
fn blocks<'a>(page: &'a str, language: &str) -> Vec<(&'a str, &'a str)> {
    let fence = format!("\n```{language}\n");
    page.split(&fence)
        .skip(1)
        .map(|rest| rest.split_once("\n```\n").expect("a block that ends"))
        .collect()
}

/// Whether the output is what is shown: a line `..` stands for any lines, and `..` at the end of a
/// line for any rest of it.
fn is_shown(shown: &[&str], output: &[&str]) -> bool {
    match shown.split_first() {
        None => output.is_empty(),
        Some((&"..", rest)) => (0..=output.len()).any(|n| is_shown(rest, &output[n..])),
        Some((line, rest)) => output.split_first().is_some_and(|(said, others)| {
            let same = match line.strip_suffix("..") {
                Some(begin) => said.starts_with(begin),
                None => said == line,
            };
            same && is_shown(rest, others)
        }),
    }
}

#[test]
fn what_commands_print() {
    fs::create_dir_all(root().join("target")).expect("a folder for what is written");
    let mut commands = 0;
    for name in PAGES {
        let page = page(name);
        for (block, _) in blocks(&page, "console") {
            for part in block.strip_prefix("$ ").expect("a command").split("\n$ ") {
                let mut shown = part.lines();
                let command = shown.next().expect("a command");
                let output = Command::new("sh")
                    .args(["-c", &format!("exec 2>&1; {command}")])
                    .current_dir(root())
                    .output()
                    .expect("a shell");
                let output = String::from_utf8(output.stdout).expect("text");
                let (shown, said): (Vec<&str>, Vec<&str>) =
                    (shown.collect(), output.lines().collect());
                assert!(is_shown(&shown, &said), "{name}: {command}: {output}");
                commands += 1;
            }
        }
    }
    assert!(commands > 5);
}

#[test]
fn what_the_c_program_prints() {
    let page = page("README.md");
    let programs: Vec<_> = blocks(&page, "c")
        .into_iter()
        .filter(|(block, _)| block.contains("int main"))
        .collect();
    assert!(!programs.is_empty());
    let archive = env::var_os("PLUMETHRIFT_ARCHIVE_DIR")
        .map_or_else(|| root().join("crates/plumethrift/out"), PathBuf::from)
        .join("libplumethrift.a");
    for (block, after) in programs {
        let folder = Path::new(env!("CARGO_TARGET_TMPDIR"));
        let (source, program) = (folder.join("readme.c"), folder.join("readme"));
        fs::write(&source, block).expect("the source");
        let compiled = Command::new("cc")
            .args(["-std=c99", "-Wall", "-Wextra", "-Werror", "-pedantic", "-I"])
            .args([&root().join("include"), &source, &archive])
            .arg("-o")
            .arg(&program)
            .status()
            .expect("a C compiler");
        assert!(compiled.success());
        let output = Command::new(&program)
            .output()
            .expect("a program that runs");
        let (_, said) = after.split_once("It prints `").expect("what it prints");
        let (said, _) = said.split_once('`').expect("the end of what it prints");
        assert_eq!(String::from_utf8_lossy(&output.stdout), format!("{said}\n"));
    }
}

/// The kit that the README names is the one that all is proved with.
#[test]
fn the_kit() {
    let kit = page(".ci/kit");
    let quoted = format!("`{}`", kit.trim_end());
    assert!(page("README.md").contains(&quoted), "{quoted}");
}

/// The rows of the table that the benchmark made, behind a line.
fn rows_made<'a>(page: &'a str, begin: &str) -> Vec<&'a str> {
    let (_, rest) = page.split_once(begin).expect("the table's begin");
    let (table, _) = rest
        .split_once("\n<!-- the end of what bench made -->\n")
        .expect("the table's end");
    table.lines().collect()
}

/// The README's table of speed is of the run that docs/SPEED.md has.
#[test]
fn the_table_of_speed() {
    let (short, whole) = (page("README.md"), page("docs/SPEED.md"));
    let short = rows_made(&short, "\n<!-- made by bench --table, in short -->\n");
    let whole = rows_made(&whole, "\n<!-- made by bench --table -->\n");
    assert!(short.len() > 4 && whole.len() > short.len());
    for row in short {
        assert!(whole.contains(&row), "{row}");
    }
}

/// Every page of the repository.
fn pages() -> Vec<PathBuf> {
    ["", "samples", "docs", "docs/decisions", "docs/landings"]
        .iter()
        .flat_map(|folder| fs::read_dir(root().join(folder)).expect("a folder"))
        .map(|entry| entry.expect("a file").path())
        .filter(|path| path.extension() == Some("md".as_ref()))
        .collect()
}

#[test]
fn links_lead_somewhere() {
    for page in pages() {
        let text = fs::read_to_string(&page).expect("a document");
        for link in text.split("](").skip(1) {
            let (link, _) = link.split_once(')').expect("a link that ends");
            let (link, _) = link.split_once('#').unwrap_or((link, ""));
            if link.is_empty() || link.contains("://") {
                continue;
            }
            let target = page.parent().expect("its folder").join(link);
            assert!(target.exists(), "{}: {link}", page.display());
        }
    }
}

/// What stands between backticks on a page, but for fenced blocks.
fn quoted(page: &str) -> Vec<&str> {
    let text = page.split("```").step_by(2);
    text.flat_map(|text| text.split('`').skip(1).step_by(2))
        .collect()
}

/// Whether a file of the crate's code or specifications has the word.
fn has_word(folder: &Path, word: &str) -> bool {
    let Ok(entries) = fs::read_dir(folder) else {
        return false;
    };
    entries
        .map(|entry| entry.expect("a file").path())
        .any(|path| {
            if path.is_dir() {
                return has_word(&path, word);
            }
            let text = fs::read_to_string(&path).expect("text");
            text.split(|c: char| c != '_' && !c.is_alphanumeric())
                .any(|other| other == word)
        })
}

/// Functions that pages name as `crate::function`, and edits as `crate/edit`, are there. Notes of
/// landings and the list of changes tell what was.
#[test]
fn names_are_there() {
    let mut names = 0;
    for page in pages() {
        if page.ends_with("CHANGELOG.md") || page.parent() == Some(&root().join("docs/landings")) {
            continue;
        }
        let text = fs::read_to_string(&page).expect("a page");
        for quoted in quoted(&text) {
            if let Some((name, word)) = quoted.split_once("::") {
                let folder = root().join("crates").join(name);
                if folder.is_dir() {
                    let there = ["src", "specs"].map(|part| has_word(&folder.join(part), word));
                    assert!(there.contains(&true), "{}: {quoted}", page.display());
                    names += 1;
                }
            } else if let Some((name, edit)) = quoted.split_once('/') {
                let folder = root().join("crates").join(name);
                if folder.is_dir() && !edit.contains(['/', '.', '*', ' ']) {
                    let file = folder.join("must-fail").join(edit).with_extension("edit");
                    let there = file.is_file() || folder.join(edit).is_dir();
                    assert!(there, "{}: {quoted}", page.display());
                    names += 1;
                }
            }
        }
    }
    assert!(names > 200);
}
