//! The binary, line by line.

use std::io::Write;
use std::process::{Command, Output, Stdio};

fn run(arguments: &[&str], input: &[u8]) -> Output {
    let mut child = Command::new(env!("CARGO_BIN_EXE_oracle"))
        .args(arguments)
        .stdin(Stdio::piped())
        .stdout(Stdio::piped())
        .stderr(Stdio::piped())
        .spawn()
        .expect("the binary starts");
    let mut stdin = child.stdin.take().expect("piped");
    let input = input.to_vec();
    let writer = std::thread::spawn(move || stdin.write_all(&input));
    let output = child.wait_with_output().expect("the binary ends");
    // A usage error does not read its input.
    let _ = writer.join().expect("the writer ends");
    output
}

fn answers(input: &[u8]) -> String {
    let output = run(&["answer"], input);
    assert!(output.status.success());
    String::from_utf8(output.stdout).expect("answers are ASCII")
}

#[test]
fn each_verb() {
    let input = b"read -\nread 312032\nread 5d\nformat 312032 09 0a 20 3a20 0\nformat - 09 0a 20 3a20 0\n\
        unquote 225c757b7d22\nunquote 2222\nunquote 27\nidentifier 61\nidentifier -\ntokens 315b\n\
        tokens -\ncompare 5b315d 20315d\ncompare 5b315d 205b315d\ncompare 31 32\nread 315b\nread ff";
    let expected = "\
ok 5 0 0 0 1
ok 4 0 3 3 3 2 0 1 1 1 2 2 3 3 1
refused 13 0 1 0 0
bytes 5b312c20325d
bytes -
bytes 00
bytes -
refused 18 0 0 0 0
yes
no
ok 11 0 1 2 1 2
ok
refused 13 2 3 0 0
yes
no
refused 11 1 2 8 2
refused 2 0 0 0 0
";
    assert_eq!(answers(input), expected);
}

#[test]
fn lent_memory() {
    let input = b"read 312032 15\nread 312032 14\nread 5d 0\nunquote 225c6e22 1\nunquote 225c6e22 0\nunquote 226122 0\n\
        layout - 0500000000000000000000000000000001000000 0\nlayout - - 0\nreformat 312032 15 6\nreformat 312032 15 5\n";
    let expected = "\
ok 4 0 3 3 3 2 0 1 1 1 2 2 3 3 1
refused 14 0 0 0 0
refused 13 0 1 0 0
bytes 0a
refused 14 0 0 0 0
bytes 61
bytes -
refused 15 0 0 0 0
bytes 5b312c20325d
refused 14 0 0 0 0
";
    assert_eq!(answers(input), expected);
}

#[test]
fn a_bad_line_is_one_bad_answer() {
    let input: &[u8] = b"\nread\nread \nread 6\nread 6G\nread 6A\nread 61 61 61\nREAD 61\n read 61\nread  61\n\
        read 61\r\nformat 61\nformat 61 - - - - 2\nformat 61 - - - -\ncompare 61\nidentifier\n\xFF\xFE\n\0\nread 61\n";
    let answers = answers(input);
    let lines: Vec<&str> = answers.lines().collect();
    let (last, bad) = lines.split_last().expect("answered");
    assert_eq!(bad.len(), 18);
    for line in bad {
        assert!(line.starts_with("error: "), "{line}");
    }
    assert_eq!(*last, "ok 1 0 1 1 1");
}

#[test]
fn generate_prints_cases_that_are_answered() {
    let cases = run(&["generate", "all", "3000", "1"], b"");
    assert!(cases.status.success());
    let answers = answers(&cases.stdout);
    assert_eq!(answers.lines().count(), 3000);
    assert!(!answers.contains("error"));
}

#[test]
fn agree_fails_where_a_row_differs() {
    let file = |name: &str, statement: &str| {
        let path = format!("{}/{name}", env!("CARGO_TARGET_TMPDIR"));
        let row = format!("row : {statement}\nunfolding writes bytes\nrow = refl\n");
        std::fs::write(&path, row).expect("the file is written");
        path
    };
    let good = file("good.rows", "\"1 2\" is_written \"[1, 2]\"");
    let bad = file("bad.rows", "\"1\" is_written \"2\"");
    let unread = file("unread.rows", "\"1\" isLike \"2\"");
    let said = |output: &Output| String::from_utf8_lossy(&output.stdout).into_owned();

    let output = run(&["agree", &good, &unread], b"");
    assert!(output.status.success());
    assert_eq!(
        said(&output),
        format!(
            "{good}: 1 rows agree, 0 differ, 0 are not read\n{unread}: 0 rows agree, 0 differ, 1 are not read\n  not read: row\n"
        )
    );

    let output = run(&["agree", &bad, &good], b"");
    assert_eq!(output.status.code(), Some(1));
    assert_eq!(
        said(&output),
        format!(
            "{bad}: 0 rows agree, 1 differ, 0 are not read\n  row\n    the row:      [0, 50]\n    the original: [0, 49]\n{good}: 1 rows agree, 0 differ, 0 are not read\n"
        )
    );
}

#[test]
fn bad_arguments_are_told() {
    for arguments in [
        &[][..],
        &["generate"],
        &["generate", "nothing", "1", "1"],
        &["generate", "all", "x", "1"],
        &["generate", "all", "1", "-1"],
        &["answer", "more"],
        &["agree"],
        &["agree", "no-such-file"],
    ] {
        let output = run(arguments, b"");
        assert!(!output.status.success(), "{arguments:?}");
        assert!(output.stderr.starts_with(b"oracle: "), "{arguments:?}");
    }
}
