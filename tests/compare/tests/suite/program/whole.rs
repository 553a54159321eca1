//! `tools/whole.sh`: an answer that is cut anywhere is told from the whole one.

use crate::helpers::*;
use compare::inputs::LONGEST_THAT_FITS;
use second::build::*;
use second::encode::program_input;
use second::streams::full;
use std::fs;
use std::io::Write;
use std::path::{Path, PathBuf};
use std::process::{Command, Output, Stdio};

fn script() -> Command {
    let folder = Path::new(env!("CARGO_MANIFEST_DIR"));
    Command::new(folder.join("../../tools/whole.sh"))
}

/// A file with these bytes, of a name that no other test has.
fn file(name: &str, bytes: &[u8]) -> PathBuf {
    let path = Path::new(env!("CARGO_TARGET_TMPDIR")).join(format!("whole_{name}"));
    fs::write(&path, bytes).expect("a file");
    path
}

/// Whether an answer is the whole one to an input, by the script's exit status.
fn is_whole(name: &str, input: &[u8], answer: &[u8]) -> bool {
    let input = file(&format!("{name}.in"), input);
    let answer = file(&format!("{name}.out"), answer);
    let output = script().arg("--test").args([&input, &answer]).output().expect("it starts");
    let errors = String::from_utf8(output.stderr).expect("text");
    assert!(output.stdout.is_empty());
    match output.status.code() {
        Some(0) => assert_eq!(errors, ""),
        Some(1) => assert!(errors.ends_with(" is not a whole answer\n"), "{errors}"),
        other => panic!("{other:?}: {errors}"),
    }
    output.status.success()
}

/// Every answer is whole, and none of its beginnings is: with no registers, with some,
/// as a refusal of the image and of the run.
#[test]
fn no_beginning_of_an_answer_is_whole() {
    let product = program_input(&CALCULATOR, &[]);
    let factorial = program_input(&image(2, factorial()), &[1, 21]);
    let empty = program_input(&image(2, absent()), &[7, -3]);
    let inputs = [product, factorial.clone(), factorial[..20].to_vec(), Vec::new(), empty];
    for (index, input) in inputs.iter().enumerate() {
        let answer = second::program(input);
        let name = format!("beginnings_{index}");
        assert!(is_whole(&name, input, &answer));
        for length in 0..answer.len() {
            assert!(!is_whole(&name, input, &answer[..length]), "{length} bytes of {index}");
        }
    }
}

/// Of sixteen registers, whose answer is the longest, at the ends of its lines.
#[test]
fn no_lines_of_an_answer_are_whole() {
    let input = program_input(&image(16, num(1)), &[i64::MIN; 16]);
    let answer = second::program(&input);
    let ends = (0..answer.len()).filter(|index| answer[*index] == b'\n');
    for end in ends {
        let lines = &answer[..=end];
        assert_eq!(is_whole("lines", &input, lines), lines.len() == answer.len());
        assert!(!is_whole("lines", &input, &answer[..end]));
    }
}

/// What the script makes of an input and a program.
fn answered(program: &[&str], input: &[u8], output: Stdio) -> Output {
    let mut child = script()
        .args(program)
        .stdin(Stdio::piped())
        .stdout(output)
        .stderr(Stdio::piped())
        .spawn()
        .expect("it starts");
    // A script that has no program does not read its input.
    let _ = child.stdin.take().expect("a pipe").write_all(input);
    child.wait_with_output().expect("what it printed")
}

#[test]
fn a_whole_answer_is_handed_on() {
    let program = the_program();
    let program = program.path().to_str().expect("a path in UTF-8");
    let longest = program_input(&image(16, in_turn(vec![assign(3, num(9)); 667])), &[4; 16]);
    assert_eq!(longest.len(), LONGEST_THAT_FITS);
    let empty = program_input(&image(16, absent()), &[-4; 16]);
    for input in [program_input(&CALCULATOR, &[]), Vec::new(), longest, vec![7; 20_000], empty] {
        let output = answered(&[program], &input, Stdio::piped());
        assert_eq!(output.stdout, second::program(&input));
        assert!(output.stderr.is_empty() && output.status.success());
    }
}

/// A program that writes a part, one that ends by a signal, none; and an answer that
/// cannot be handed on.
#[test]
fn anything_else_is_said() {
    let input = program_input(&CALCULATOR, &[]);
    let said = |program: &[&str], status: i32, message: &str| {
        let output = answered(program, &input, Stdio::piped());
        let errors = String::from_utf8(output.stderr).expect("text");
        assert_eq!((output.stdout.len(), output.status.code()), (0, Some(status)), "{errors}");
        assert!(errors.contains(message), "{errors}");
    };
    said(&["sh", "-c", "printf 'none\\nsteps 3'"], 1, "no whole answer from sh");
    said(&["true"], 1, "no whole answer from true");
    said(&["sh", "-c", "kill -9 $$"], 1, "sh ended with status 137");
    said(&["no_such_program"], 2, "there is no program no_such_program; `tools/build.sh` makes");
    said(&["--whole"], 2, "no option --whole; see --help");
    said(&["--test", "one"], 2, "wrong arguments for --test; see --help");
    said(&["--test", "/", "/no/file"], 2, "/ cannot be read");
    let product = ["printf", "number 25\\nsteps 7\\nmost 0 0 3 4\\n"];
    let output = answered(&product, &input, full().into());
    let errors = String::from_utf8(output.stderr).expect("text");
    assert!(errors.contains("the answer could not be written whole"), "{errors}");
    assert_eq!(output.status.code(), Some(1));
    let output = script().arg("--help").output().expect("it starts");
    assert!(output.stdout.starts_with(b"usage: tools/whole.sh") && output.status.success());
}

/// A directory and a closed input have no answer.
#[test]
fn an_input_that_cannot_be_read_is_said() {
    let path = script().get_program().to_owned();
    for redirected in ["</", "<&-"] {
        let output = Command::new("/bin/sh")
            .args(["-c", &format!("exec \"$0\" true {redirected}")])
            .arg(&path)
            .output()
            .expect("a shell starts");
        let errors = String::from_utf8(output.stderr).expect("text");
        assert!(errors.contains("no answer, since standard input could not be read"), "{errors}");
        assert!(output.stdout.is_empty() && output.status.code() == Some(1));
    }
}
