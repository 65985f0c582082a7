//! The commands as they are called: a text to its fields, and a text with a listing to a picture.

use std::io::Write;
use std::path::{Path, PathBuf};
use std::process::{Command, Output, Stdio};

fn called(program: &str, file: &Path, input: &str) -> Output {
    let mut child = Command::new(program)
        .arg(file)
        .stdin(Stdio::piped())
        .stdout(Stdio::piped())
        .stderr(Stdio::piped())
        .spawn()
        .unwrap();
    // What cannot be read is told without looking at the input.
    let _ = child.stdin.take().unwrap().write_all(input.as_bytes());
    child.wait_with_output().unwrap()
}

fn table(file: &Path) -> Output {
    called(env!("CARGO_BIN_EXE_table"), file, "")
}

fn draw(file: &Path, listing: &str) -> Output {
    called(env!("CARGO_BIN_EXE_draw"), file, listing)
}

fn root() -> PathBuf {
    Path::new(env!("CARGO_MANIFEST_DIR")).join("..")
}

/// What a command says on standard error when it fails.
fn complaint(output: Output) -> String {
    assert_eq!(output.status.code(), Some(1));
    assert!(output.stdout.is_empty());
    String::from_utf8(output.stderr).unwrap()
}

#[test]
fn the_paper_s_example_in_text_is_the_paper_s_input() {
    let output = table(&root().join("examples/paper.txt"));
    let input = std::fs::read(root().join("crates/run/stdin")).unwrap();
    assert!(output.status.success());
    assert_eq!(output.stdout, input);
}

#[test]
fn a_bad_text_is_told_by_file_line_and_reason() {
    let file = std::env::temp_dir().join(format!("tools-cli-{}.txt", std::process::id()));
    std::fs::write(&file, "task 1 2 3\nfoo\n").unwrap();
    let name = file.display();
    let told = format!("{name}: line 2: 'foo' is no item: task, arrival or run\n");
    assert_eq!(complaint(table(&file)), format!("table: {told}"));
    assert_eq!(complaint(draw(&file, "")), format!("draw: {told}"));
    std::fs::remove_file(&file).unwrap();
    assert!(complaint(table(&file)).starts_with("table: "));
}

#[test]
fn a_refused_run_is_told_in_words() {
    let paper = root().join("examples/paper.txt");
    let told = complaint(draw(&paper, "slot who\nx 6 3\n"));
    let refused = "draw: the run refused its input: 6 (overloaded), place 3\n";
    assert_eq!(told, refused);
    let told = complaint(draw(&paper, "slot who\n0 Q\n"));
    assert_eq!(told, "draw: line 2 of the listing is of no known form\n");
}

#[test]
fn a_wrong_command_line_has_status_2() {
    for program in [env!("CARGO_BIN_EXE_table"), env!("CARGO_BIN_EXE_draw")] {
        let output = Command::new(program).output().unwrap();
        assert_eq!(output.status.code(), Some(2));
    }
}
