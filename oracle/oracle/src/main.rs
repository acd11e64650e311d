//! A request on each line of the input, an answer on each line of the output. README.md has the requests.

mod hex;

use std::{
    io::{self, BufRead, Write},
    process::ExitCode,
};

use oracle::{Failure, Module};

use crate::hex::{to_array, to_bytes, to_text};

fn main() -> ExitCode {
    oracle::quiet();
    match answer_all() {
        Ok(()) => ExitCode::SUCCESS,
        Err(error) => {
            eprintln!("oracle: {error}");
            ExitCode::FAILURE
        }
    }
}

fn answer_all() -> io::Result<()> {
    let mut output = io::stdout().lock();
    for line in io::stdin().lock().lines() {
        match answer(&line?) {
            Ok(answer) => writeln!(output, "ok {answer}")?,
            Err(Failure::Panic(text)) => writeln!(output, "panic {}", text.replace('\n', " "))?,
            Err(Failure::Unresolved(scope)) => writeln!(output, "err {}", modules(&scope))?,
            Err(Failure::TooLong) => writeln!(output, "toolong")?,
            Err(Failure::Bad(text)) => writeln!(output, "bad {text}")?,
        }
    }
    Ok(())
}

/// Fields behind those that are named here are the lengths of buffers, which the crate does not have.
fn answer(request: &str) -> Result<String, Failure> {
    let fields: Vec<&str> = request.split(' ').collect();
    match fields[..] {
        ["extract", files, own, config, externals, table, tree, ..] => {
            extract([files, own, config, externals, table, tree])
        }
        ["both", files, own, config, externals, table, tree, ..] => {
            both([files, own, config, externals, table, tree])
        }
        ["resolve", files, table, records, ..] => {
            let r = oracle::resolve(&to_bytes(files)?, &to_bytes(table)?, &to_bytes(records)?)?;
            Ok(format!("{} {}", to_text(&r.list), modules(&r.scope)))
        }
        ["detect", config, tree] => {
            let is_es6 = oracle::detect(bit(config)?, &to_bytes(tree)?)?;
            Ok(u8::from(is_es6).to_string())
        }
        ["encode", injected, context, attributes, ..] => {
            let attributes =
                oracle::encode(bit(injected)?, to_context(context)?, &to_bytes(attributes)?)?;
            Ok(to_text(&attributes))
        }
        ["decode", attributes] => {
            let (injected, context) = oracle::decode(&to_bytes(attributes)?)?;
            let context = context.map_or("-".to_string(), |context| format!("{context:08x}"));
            Ok(format!("{} {context}", u8::from(injected)))
        }
        _ => Err(Failure::Bad("no such request".to_string())),
    }
}

fn extract([files, own, config, externals, table, tree]: [&str; 6]) -> Result<String, Failure> {
    let own = u16::from_be_bytes(to_array(own)?);
    let [files, externals, table, tree] = all_to_bytes([files, externals, table, tree])?;
    let e = oracle::extract(&files, own, bit(config)?, &externals, &table, &tree)?;
    let [work, out, records] = [e.work, e.out, e.records].map(|bytes| to_text(&bytes));
    Ok(format!("{work} {out} {records} {}", modules(&e.scope)))
}

fn both([files, own, config, externals, table, tree]: [&str; 6]) -> Result<String, Failure> {
    let own = u16::from_be_bytes(to_array(own)?);
    let [files, externals, table, tree] = all_to_bytes([files, externals, table, tree])?;
    let (e, r) = oracle::both(&files, own, bit(config)?, &externals, &table, &tree)?;
    let [work, out, records, list] =
        [e.work, e.out, e.records, r.list].map(|bytes| to_text(&bytes));
    Ok(format!(
        "{work} {out} {records} {list} {}",
        modules(&r.scope)
    ))
}

fn all_to_bytes([a, b, c, d]: [&str; 4]) -> Result<[Vec<u8>; 4], Failure> {
    Ok([to_bytes(a)?, to_bytes(b)?, to_bytes(c)?, to_bytes(d)?])
}

fn to_context(text: &str) -> Result<Option<u32>, Failure> {
    match text {
        "-" => Ok(None),
        _ => Ok(Some(u32::from_be_bytes(to_array(text)?))),
    }
}

fn bit(text: &str) -> Result<bool, Failure> {
    match text {
        "0" => Ok(false),
        "1" => Ok(true),
        _ => Err(Failure::Bad("a field is neither 0 nor 1".to_string())),
    }
}

/// `file:LSCW` for each module: loaded, stored, cjs, wrapping.
fn modules(scope: &[Module]) -> String {
    let bit = |module: &Module, mark: u8| module.marks >> mark & 1;
    let texts = scope.iter().map(|m| {
        let [l, s, c, w] = [0, 1, 2, 3].map(|mark| bit(m, mark));
        format!("{:04x}:{l}{s}{c}{w}", m.file)
    });
    match scope {
        [] => "-".to_string(),
        _ => texts.collect::<Vec<_>>().join(","),
    }
}
