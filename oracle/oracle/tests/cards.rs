//! Runs cards.txt through the program.

use std::{
    fs,
    io::Write,
    process::{Command, Stdio},
    thread,
};

fn answers(requests: &[&str]) -> Vec<String> {
    let mut program = Command::new(env!("CARGO_BIN_EXE_oracle"))
        .stdin(Stdio::piped())
        .stdout(Stdio::piped())
        .spawn()
        .unwrap();
    let mut input = program.stdin.take().unwrap();
    let text = requests.join("\n");
    let writing = thread::spawn(move || input.write_all(text.as_bytes()));
    let output = program.wait_with_output().unwrap();
    writing.join().unwrap().unwrap();
    assert!(output.status.success());
    let answers = String::from_utf8(output.stdout).unwrap();
    answers.lines().map(str::to_string).collect()
}

#[test]
fn cards() {
    let path = concat!(env!("CARGO_MANIFEST_DIR"), "/../cards.txt");
    let text = fs::read_to_string(path).unwrap().replace('_', "");
    let lines = |mark: &str| -> Vec<&str> {
        text.lines()
            .filter_map(|line| line.strip_prefix(mark))
            .collect()
    };
    let requests = lines("> ");
    assert_eq!(requests.len(), 15);
    assert_eq!(answers(&requests), lines("< "));
}
