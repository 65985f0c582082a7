//! The two programs as they are called: standard input to standard output, and seeded files.

mod common;

use common::{input, M};
use std::io::Write;
use std::process::{Command, Output, Stdio};

fn second(words: &[&str], bytes: &[u8]) -> Output {
    let mut child = Command::new(env!("CARGO_BIN_EXE_second"))
        .args(words)
        .stdin(Stdio::piped())
        .stdout(Stdio::piped())
        .stderr(Stdio::piped())
        .spawn()
        .unwrap();
    // A wrong command line is told without reading.
    let _ = child.stdin.take().unwrap().write_all(bytes);
    child.wait_with_output().unwrap()
}

#[test]
fn the_three_answers() {
    let bytes = input(&M, &[(1, 2, None)], 10);
    let listing = "slot who\n0 P1\na 1 2 4\n1 P1\n2 S4\n3 S4\n4 P2\n5 P1\n6 P1\n7 P2\n8 -\n9 -\n";
    assert_eq!(second(&["run"], &bytes).stdout, listing.as_bytes());
    assert_eq!(second(&["boot"], &bytes).stdout, b"0 0 10\n");
    let view = "W 10\nplaces 3\nK 0 3 8\nD 1 1 2\nF 4\nat 1\nA 0\nI 0\nY 1 1 2\na 1 2 4\n";
    assert_eq!(second(&["show"], &bytes).stdout, view.as_bytes());
    assert_eq!(second(&["show"], &[]).stdout, b"x 19 0\n");
    assert_eq!(second(&["run"], &[]).stdout, b"slot who\nx 19 0\n");
    assert_eq!(second(&["boot"], &[]).stdout, b"19 0 0\n");
}

#[test]
fn broken_on_request() {
    let bytes = input(&M, &[(1, 2, None)], 10);
    let broken = second(&["run", "--broken", "promise-late"], &bytes);
    assert!(String::from_utf8(broken.stdout)
        .unwrap()
        .contains("a 1 2 5\n"));
    for words in [&["run", "--broken", "no-such"][..], &["walk"], &[]] {
        let wrong = second(words, &bytes);
        assert_eq!(wrong.status.code(), Some(2));
        let told = String::from_utf8(wrong.stderr).unwrap();
        assert!(told.contains("of these seen at boot: order "), "{told}");
    }
}

fn gen(words: &[&str]) -> Vec<u8> {
    let told = Command::new(env!("CARGO_BIN_EXE_gen"))
        .args(words)
        .output()
        .unwrap();
    assert!(told.status.success(), "{words:?}");
    told.stdout
}

#[test]
fn a_stream_is_answered_line_by_line() {
    let stream = gen(&["--flood", "100", "--seed", "5"]);
    assert_eq!(stream, gen(&["--flood", "100", "--seed", "5"]));
    assert_ne!(stream, gen(&["--flood", "100", "--seed", "6"]));
    let answers = String::from_utf8(second(&["boots"], &stream).stdout).unwrap();
    assert_eq!(answers.lines().count(), 100);
    let mut rest = &stream[..];
    for answer in answers.lines() {
        let (length, after) = rest.split_first_chunk::<4>().unwrap();
        let (string, after) = after.split_at(u32::from_le_bytes(*length) as usize);
        let alone = second(&["boot"], string).stdout;
        assert_eq!(alone, format!("{answer}\n").as_bytes());
        rest = after;
    }
    assert!(rest.is_empty());
}

#[test]
fn a_seed_gives_the_same_files() {
    let base = std::env::temp_dir().join(format!("second-gen-{}", std::process::id()));
    let write = |name: &str, seed: &str| {
        let out = base.join(name);
        let status = Command::new(env!("CARGO_BIN_EXE_gen"))
            .args(["--cases", "200", "--seed", seed, "--out"])
            .arg(&out)
            .status()
            .unwrap();
        assert!(status.success());
        let file = |n: usize| std::fs::read(out.join(format!("{n:06}.bin"))).unwrap();
        (0..200).map(file).collect::<Vec<_>>()
    };
    let (one, same, other) = (write("one", "5"), write("same", "5"), write("other", "6"));
    std::fs::remove_dir_all(&base).unwrap();
    assert_eq!(one, same);
    assert_ne!(one, other);
    assert_eq!(one[0], input(&M, &[(1, 2, None)], 10));
}
