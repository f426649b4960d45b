//! Plants slips: `slips list FILE` prints their names, and `slips plant FILE NAME KCP.RS` prints that source with one planted.

use std::fs;
use std::process::exit;

struct Slip {
    name: String,
    from: String,
    says: String,
    edits: Vec<Edit>,
}

#[derive(Default)]
struct Edit {
    after: String,
    old: String,
    new: String,
}

fn stop(line: String) -> ! {
    eprintln!("slips: {}", line);
    exit(2)
}

fn read(path: &str) -> String {
    fs::read_to_string(path).unwrap_or_else(|e| stop(format!("cannot read {}: {}", path, e)))
}

fn slips(text: &str) -> Vec<Slip> {
    let mut all: Vec<Slip> = Vec::new();
    let mut after = String::new();
    for (i, line) in text.lines().enumerate() {
        if line.starts_with('#') || line.trim().is_empty() {
            continue;
        }
        let mut parts = line.splitn(2, ':');
        let key = parts.next().unwrap_or("");
        let value = parts.next().unwrap_or("").trim().to_string();
        if key == "slip" {
            after = String::new();
            all.push(Slip { name: value, from: String::new(), says: String::new(), edits: Vec::new() });
            continue;
        }
        let slip = all.last_mut().unwrap_or_else(|| stop(format!("line {}: a slip begins with 'slip:'", i + 1)));
        match key {
            "from" => slip.from = value,
            "says" => slip.says = value,
            "after" => after = value,
            "old" => slip.edits.push(Edit { after: std::mem::take(&mut after), old: value, new: String::new() }),
            "new" => match slip.edits.last_mut() {
                Some(edit) => edit.new = value,
                None => stop(format!("line {}: 'new' without 'old'", i + 1)),
            },
            _ => stop(format!("line {}: '{}' is no word of a slip", i + 1, key)),
        }
    }
    all
}

/// The source with the slip's edits, each made where its text first stands behind the last edit or its `after`.
fn plant(slip: &Slip, source: &str) -> String {
    let mut text = source.to_string();
    let mut done = 0;
    for edit in &slip.edits {
        let from = match text[done..].find(&edit.after) {
            Some(at) => done + at,
            None => stop(format!("{}: no '{}' in the source", slip.name, edit.after)),
        };
        let at = match text[from..].find(&edit.old) {
            Some(at) => from + at,
            None => stop(format!("{}: no '{}' in the source", slip.name, edit.old)),
        };
        text.replace_range(at..at + edit.old.len(), &edit.new);
        done = at + edit.new.len();
    }
    text
}

fn main() {
    let words: Vec<String> = std::env::args().skip(1).collect();
    let words: Vec<&str> = words.iter().map(|w| w.as_str()).collect();
    match words[..] {
        ["list", file] => {
            for slip in slips(&read(file)) {
                println!("{}\t{}\t{}", slip.name, slip.from, slip.says);
            }
        }
        ["plant", file, name, source] => match slips(&read(file)).iter().find(|s| s.name == name) {
            Some(slip) => print!("{}", plant(slip, &read(source))),
            None => stop(format!("no slip is called '{}'", name)),
        },
        _ => stop("usage: slips list FILE | slips plant FILE NAME SOURCE".to_string()),
    }
}
