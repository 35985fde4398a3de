//! What README.md shows is what happens: the tour's commands with their output, and the programs in C and in Rust.
//! docs/RULES.md is what the program prints.
//!
//! A command stands behind `    $ mctc `, its output in the indented lines below. `..` at the end of a line stands for
//! the rest of that line, and alone for the rest of the output. The output of a program in C stands below its command
//! with gcc, that of one in Rust behind `// ` in its lines.

use std::env;
use std::fs;
use std::path::Path;
use std::process::Command;

use crate::common::{empty_folder, put, repository, run};

const INDENT: &str = "    ";

fn readme() -> String {
    fs::read_to_string(repository().join("README.md")).expect("README.md")
}

/// The commands with a prefix, each with the lines of its output.
fn commands<'a>(readme: &'a str, prefix: &str) -> Vec<(&'a str, Vec<&'a str>)> {
    let mut commands: Vec<(&str, Vec<&str>)> = Vec::new();
    let mut within = false;
    for line in readme.lines() {
        if let Some(words) = line
            .strip_prefix(INDENT)
            .and_then(|line| line.strip_prefix(prefix))
        {
            commands.push((words, Vec::new()));
            within = true;
        } else if !line.is_empty() && !line.starts_with(INDENT) {
            within = false;
        } else if let (true, Some((_, output))) = (within, commands.last_mut()) {
            output.push(line.strip_prefix(INDENT).unwrap_or_default());
        }
    }
    for (_, output) in &mut commands {
        while output.last() == Some(&"") {
            output.pop();
        }
    }
    commands
}

fn agrees(shown: &[&str], found: &[&str]) -> bool {
    let same = |shown: &str, found: &str| match shown.strip_suffix("..") {
        Some(start) => found.starts_with(start),
        None => shown == found,
    };
    match shown.split_last() {
        Some((&"..", shown)) => shown.len() < found.len() && agrees(shown, &found[..shown.len()]),
        _ => {
            let mut lines = shown.iter().zip(found);
            shown.len() == found.len() && lines.all(|(shown, found)| same(shown, found))
        }
    }
}

#[test]
fn the_tour_shows_real_output() {
    let readme = readme();
    let commands = commands(&readme, "$ mctc ");
    assert!(
        commands.len() >= 5,
        "the tour has {} commands",
        commands.len()
    );
    for (words, shown) in commands {
        let words: Vec<&str> = words.split(' ').collect();
        let output = run(&repository(), &words);
        let found = String::from_utf8(output.stdout).expect("a text");
        let found: Vec<&str> = found.lines().collect();
        assert!(
            agrees(&shown, &found),
            "mctc {words:?} prints {found:#?}, and README.md has {shown:#?}"
        );
    }
}

/// docs/RULES.md is what the program prints.
#[test]
fn the_rules_are_current() {
    let stored = fs::read_to_string(repository().join("docs/RULES.md")).expect("docs/RULES.md");
    let printed = run(&repository(), &["rules"]).stdout;
    let printed = String::from_utf8(printed).expect("a text");
    let differs = stored
        .lines()
        .zip(printed.lines())
        .find(|(one, other)| one != other);
    assert!(
        stored == printed,
        "`mctc rules` prints another text than docs/RULES.md has; first {differs:?}"
    );
}

/// The programs in a language.
fn programs<'a>(readme: &'a str, language: &str) -> Vec<&'a str> {
    let start = format!("```{language}\n");
    let behind = readme.split(start.as_str()).skip(1);
    behind.filter_map(|text| text.split("```").next()).collect()
}

/// What a program prints.
fn printed(program: &mut Command) -> String {
    let output = program.output().expect("it runs");
    String::from_utf8(output.stdout).expect("a text")
}

fn compile_c(source: &str, folder: &Path) {
    put(folder.join("program.c"), source);
    let library = env::var_os("DICEPEACH_LIBRARY").unwrap_or("target/staticlib".into());
    let compiled = Command::new("gcc")
        .args(["-Wall", "-Wextra", "-Werror", "-Iinclude"])
        .arg(folder.join("program.c"))
        .arg(repository().join(library).join("libmctc.a"))
        .arg("-o")
        .arg(folder.join("program"))
        .current_dir(repository())
        .status()
        .expect("gcc runs");
    assert!(compiled.success(), "gcc refuses a program of README.md");
}

#[test]
fn the_programs_in_c_compile_and_run() {
    let readme = readme();
    let programs = programs(&readme, "c");
    let commands = commands(&readme, "$ gcc ");
    assert_eq!((programs.len(), commands.len()), (3, 3));
    let folder = empty_folder("readme-c");
    for (source, (_, shown)) in programs.into_iter().zip(commands) {
        compile_c(source, &folder);
        let found = printed(&mut Command::new(folder.join("program")));
        assert_eq!(found.lines().collect::<Vec<_>>(), shown);
    }
}

/// Makes a package of a program over the binding.
fn put_package(source: &str, folder: &Path) {
    let binding = repository().join("bindings/rust");
    let manifest = format!(
        "[package]\nname = \"program\"\nedition = \"2021\"\n[dependencies]\nmctc = {{ path = {binding:?} }}\n"
    );
    put(folder.join("Cargo.toml"), manifest);
    put(folder.join("src/main.rs"), source);
}

#[test]
fn the_programs_in_rust_compile_and_run() {
    let readme = readme();
    let programs = programs(&readme, "rust");
    assert_eq!(programs.len(), 2);
    let folder = empty_folder("readme-rust");
    for source in programs {
        put_package(source, &folder);
        let mut cargo = Command::new(env!("CARGO"));
        cargo.args(["run", "--quiet", "--offline", "--target-dir", "target"]);
        let found = printed(cargo.current_dir(&*folder));
        let lines = source.lines();
        let shown = lines.filter_map(|line| Some(line.split_once(" // ")?.1));
        let shown: Vec<&str> = shown.collect();
        assert_eq!(found.lines().collect::<Vec<_>>(), shown);
    }
}
