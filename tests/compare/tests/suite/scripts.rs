//! The repository's scripts: each has a help, and says what it lacks and how that is
//! made. README.md names only what is there.

use std::path::{Path, PathBuf};
use std::process::{Command, Stdio};

const SCRIPTS: [&str; 8] = [
    ".ci/run",
    "bench/placements.sh",
    "examples/run.sh",
    "tests/cases/run.sh",
    "tests/host/run.sh",
    "tools/build.sh",
    "tools/respell.py",
    "tools/whole.sh",
];

fn repository() -> PathBuf {
    Path::new(env!("CARGO_MANIFEST_DIR")).join("../..")
}

/// Standard output, standard error and the exit status of a script.
fn script(name: &str, arguments: &[&str]) -> (String, String, Option<i32>) {
    let output = Command::new(repository().join(name))
        .args(arguments)
        .stdin(Stdio::null())
        .output()
        .expect("it starts");
    let text = |bytes| String::from_utf8(bytes).expect("text");
    (text(output.stdout), text(output.stderr), output.status.code())
}

#[test]
fn each_has_a_help() {
    for name in SCRIPTS {
        for option in ["--help", "-h"] {
            let (output, errors, status) = script(name, &[option]);
            assert!(output.contains(&format!("usage: {name}")), "{name}: {output}");
            assert_eq!((errors.as_str(), status), ("", Some(0)), "{name}");
        }
    }
}

#[test]
fn wrong_arguments_are_said() {
    for (name, arguments) in [
        (".ci/run", ["all"].as_slice()),
        ("bench/placements.sh", &["no/libengine.a"]),
        ("tests/cases/run.sh", &["all"]),
        ("tests/host/run.sh", &[]),
        ("tests/host/run.sh", &["1", "2", "3", "4"]),
    ] {
        let (output, errors, status) = script(name, arguments);
        assert!(errors.contains(&format!("usage: {name}")), "{name}: {errors}");
        assert_eq!((output.as_str(), status), ("", Some(2)), "{name}");
    }
}

/// What is missing is named, with the command that makes it, and counts as failed.
#[test]
fn what_is_missing_is_said() {
    for (name, missing, said) in [
        (
            "examples/run.sh",
            "no/pirun",
            "there is no program no/pirun; to build it: tools/build.sh",
        ),
        ("examples/run.sh", "no/second", "there is no program no/second; to build it: cargo build"),
        ("examples/run.sh", "no/other", "there is no program no/other\n"),
        ("tests/host/run.sh", "no/libengine.a", "tools/build.sh"),
    ] {
        let (output, errors, status) = script(name, &[missing]);
        assert!(format!("{output}{errors}").contains(said), "{output}{errors}");
        assert!(output.ends_with("0 passed, 1 failed\n"), "{output}");
        assert_eq!(status, Some(1));
    }
}

/// A sample that is printed otherwise than it is stored counts as failed.
#[test]
fn another_program_fails_the_samples() {
    let (output, _, status) = script("examples/run.sh", &["true"]);
    let mut samples = 0;
    for entry in std::fs::read_dir(repository().join("examples")).expect("the samples") {
        let path = entry.expect("a sample").path();
        if path.extension().is_some_and(|extension| extension == "pi") {
            let name = path.file_stem().expect("a name").to_string_lossy();
            assert!(output.contains(&format!("{name}: FAILED\n")), "{output}");
            samples += 1;
        }
    }
    let last = output.lines().last().expect("a line");
    assert!(samples > 5 && last.contains(" passed, ") && !last.ends_with(" 0 failed"), "{last}");
    assert_eq!(status, Some(1));
}

/// Every script, manifest and folder that README.md names in a command or in the layout.
#[test]
fn the_readme_names_what_is_there() {
    let readme = std::fs::read_to_string(repository().join("README.md")).expect("README.md");
    let mut named = 0;
    for word in readme.split(|character: char| character.is_whitespace() || character == '`') {
        let path = word.trim_end_matches([',', '.', ';', ':', ')']);
        let begins =
            ["crates/", "tests/", "examples/", "tools/", "include/", "docs/", "bench/", ".ci/"];
        // What is built, and the folders that stand for many, are not looked for.
        let built = path.contains("target/") || path.contains(['*', '<', '>', '{']);
        if begins.iter().any(|begin| path.starts_with(begin)) && !built {
            assert!(repository().join(path).exists(), "README.md names {path}");
            named += 1;
        }
    }
    assert!(named > 50, "{named} paths");
}
