//! oracle/compare: holds the judge and another side to the same calls. The script of that name has the usage.

use driver::call::{parse, Call, LEAVES, NAMES};
use driver::ends;
use driver::generator::PROFILES;
use driver::run::{reach, replay, run, Finding, Plan, Replay, Report};
use driver::shrink::shrink;
use driver::side::Side;
use driver::{rust_side, Judge};
use port::exports;
use port::joined::Joined;
use std::io::{self, Write};
use std::process::exit;
use std::time::Instant;

rust_side!(Copy, kcp_other);

fn usage(line: &str) -> ! {
    eprintln!("compare: {}; see oracle/compare --help", line);
    exit(2)
}

struct Wanted {
    plan: Plan,
    script: Option<String>,
    /// No shortening of what is found, and one line for it: for the planted slips.
    brief: bool,
    /// Says on standard error how far it is: for a terminal.
    progress: bool,
    rows: bool,
    departures: bool,
    reach: bool,
    /// Two blocks on a line in place of one.
    pairs: bool,
    /// The other side is the copy of the Rust alone.
    copy: bool,
}

fn arguments() -> Wanted {
    let mut wanted = Wanted {
        plan: Plan::default(),
        script: None,
        brief: false,
        progress: false,
        rows: false,
        departures: false,
        reach: false,
        pairs: false,
        copy: false,
    };
    let mut words = Vec::new();
    let mut rest = std::env::args().skip(1);
    while let Some(word) = rest.next() {
        match word.as_str() {
            "--replay" => wanted.script = Some(rest.next().unwrap_or_else(|| usage("--replay wants a file"))),
            "--profile" => wanted.plan.profile = Some(profile(rest.next())),
            "--brief" => wanted.brief = true,
            "--copy" => wanted.copy = true,
            "--rows" => wanted.rows = true,
            "--departures" => wanted.departures = true,
            "--reach" => wanted.reach = true,
            "--pairs" => wanted.pairs = true,
            "--progress" => wanted.progress = true,
            w if w.starts_with('-') => usage(&format!("unknown option '{}'", w)),
            _ => words.push(word),
        }
    }
    if wanted.script.is_none() && !wanted.rows && !wanted.departures {
        if words.len() < 2 {
            usage("SEED and COUNT are wanted");
        }
        wanted.plan.seed = number(&words.remove(0), "SEED");
        wanted.plan.count = number(&words.remove(0), "COUNT");
    }
    for word in &words {
        if !NAMES.contains(&word.as_str()) && !LEAVES.contains(&word.as_str()) {
            usage(&format!("'{}' is no call", word));
        }
    }
    if wanted.pairs && (!words.is_empty() || wanted.plan.profile.is_some()) {
        usage("--pairs takes SEED and COUNT alone, since pairs need every call");
    }
    wanted.plan.calls = words;
    wanted
}

fn number(word: &str, name: &str) -> u64 {
    word.parse().unwrap_or_else(|_| usage(&format!("{} is to be a number, and not '{}'", name, word)))
}

fn profile(word: Option<String>) -> driver::generator::Profile {
    let word = word.unwrap_or_else(|| usage("--profile wants a name"));
    match PROFILES.iter().find(|p| p.1 == word) {
        Some(p) => p.0,
        None => usage(&format!("'{}' is no profile", word)),
    }
}

fn sides(wanted: &Wanted) -> String {
    if wanted.copy || !exports::HAS_BLOCK {
        return "a copy of the Rust".to_string();
    }
    let lacks: Vec<&str> = exports::FLUSHES.iter().copied().filter(|name| !exports::has(name)).collect();
    let rest = if lacks.is_empty() { String::new() } else { format!("; a copy of the Rust for {}", lacks.join(", ")) };
    format!("the port for {}{}", exports::all().join(", "), rest)
}

/// The calls of a script, each with its line.
fn read_script(path: &str) -> Vec<(usize, Call)> {
    let text = std::fs::read_to_string(path).unwrap_or_else(|e| usage(&format!("cannot read {}: {}", path, e)));
    let mut calls = Vec::new();
    for (i, line) in text.lines().enumerate() {
        match parse(line) {
            Ok(Some(call)) => calls.push((i + 1, call)),
            Ok(None) => {}
            Err(e) => usage(&format!("{}:{}: {}", path, i + 1, e)),
        }
    }
    calls
}

/// The other side.
fn other(wanted: &Wanted) -> Box<dyn Side> {
    if wanted.copy || !exports::HAS_BLOCK {
        return Box::new(Copy::default());
    }
    Box::new(Joined::new(Copy::default()))
}

/// The finding as a script that `--replay` takes.
fn shown(finding: &Finding) -> String {
    let mut text = "# differs after the last call (the judge's | the other's):\n".to_string();
    for what in &finding.what {
        let line: String = what.chars().take(400).collect();
        text.push_str(&format!("#   {}\n", line));
    }
    for call in &finding.script {
        text.push_str(&format!("{}\n", call));
    }
    text
}

fn main() {
    let wanted = arguments();
    if wanted.rows {
        table(driver::rows::run(&mut Judge::default()));
    }
    if wanted.departures {
        table(port::departures::run());
    }
    if wanted.reach {
        let (never, lines) = reach(&mut Judge::default(), &wanted.plan);
        say(&format!("{}\n{} cases, {} never met\n", lines.join("\n"), lines.len(), never));
        exit((never > 0) as i32)
    }
    let script = wanted.script.as_ref().map(|path| (path, read_script(path)));
    let mut text = String::new();
    if !wanted.brief {
        text.push_str(&format!("# the other side: {}\n", sides(&wanted)));
    }
    let (calls, finding) = match &script {
        Some((path, script)) => replayed(&wanted, path, script),
        None => search(&wanted, &mut text),
    };
    if let Some(finding) = &finding {
        if !wanted.brief {
            text.push_str(&shown(finding));
        }
    }
    text.push_str(&format!("{} calls, {} differences\n", calls, finding.is_some() as u32));
    say(&text);
    exit(finding.is_some() as i32)
}

/// Writes to standard output, all at once.
fn say(text: &str) {
    let mut out = io::stdout();
    if let Err(e) = out.write_all(text.as_bytes()).and_then(|_| out.flush()) {
        eprintln!("compare: the answer could not be written: {}", e);
        exit(2);
    }
}

fn replayed(wanted: &Wanted, path: &str, script: &[(usize, Call)]) -> (u64, Option<Finding>) {
    let calls: Vec<Call> = script.iter().map(|x| x.1.clone()).collect();
    match calls.first() {
        Some(Call::Start { .. }) => {}
        _ => usage(&format!("{}: a script begins with 'new'", path)),
    }
    match replay(&mut Judge::default(), &mut *other(wanted), &calls, &wanted.plan.calls) {
        Replay::Same(count) => (count, None),
        Replay::Differs(count, finding) => (count, Some(finding)),
        Replay::Leaves(i, why) => usage(&format!("{}:{}: leaves the domain of equality: {}", path, script[i].0, why)),
    }
}

/// Rows that have been run: how many are wrong, and a line for each.
fn table((bad, lines): (usize, Vec<String>)) -> ! {
    let not_yet = lines.iter().filter(|line| line.starts_with("not yet")).count();
    let rest = if not_yet > 0 { format!(", {} not yet", not_yet) } else { String::new() };
    say(&format!("{}\n{} rows, {} wrong{}\n", lines.join("\n"), lines.len(), bad, rest));
    exit((bad > 0) as i32)
}

/// Two blocks, each on both sides, joined by a line.
fn pairs(wanted: &Wanted, progress: &mut dyn FnMut(u64), text: &mut String) -> Report {
    let (mut judges, mut others) = ([Judge::default(), Judge::default()], [other(wanted), other(wanted)]);
    let ([a, b], [c, d]) = (&mut judges, &mut others);
    let (report, done) = ends::run(&mut [[a, &mut **c], [b, &mut **d]], &wanted.plan, progress);
    if !wanted.brief {
        text.push_str(&format!(
            "# {} pairs: {} datagrams put out, {} lost, {} repeated, {} arrived; {} messages read\n",
            done.pairs, done.put_out, done.lost, done.repeated, done.arrived, done.messages
        ));
    }
    report
}

/// Runs the plan; what is found is made shorter.
fn search(wanted: &Wanted, text: &mut String) -> (u64, Option<Finding>) {
    let began = Instant::now();
    let terminal = wanted.progress;
    let mut told = 0;
    let count = wanted.plan.count;
    let mut progress = |calls: u64| {
        let seconds = began.elapsed().as_secs();
        if terminal && seconds > told + 1 {
            told = seconds;
            eprint!("\r{} of {} calls, {} s ", calls, count, seconds);
        }
    };
    let report = if wanted.pairs {
        pairs(wanted, &mut progress, text)
    } else {
        run(&mut Judge::default(), &mut *other(wanted), &wanted.plan, &mut progress)
    };
    if terminal && told > 0 {
        eprintln!();
    }
    if report.idle {
        usage("no sequence of this profile has any of these calls");
    }
    let finding = match report.finding {
        Some(finding) if !wanted.brief => {
            if terminal {
                eprintln!("a difference after {} calls; looking for the shortest sequence that shows it", report.calls);
            }
            let calls = &wanted.plan.calls;
            let mut shows = |script: &[Call]| match replay(&mut Judge::default(), &mut *other(wanted), script, calls) {
                Replay::Differs(_, finding) => Some(finding),
                _ => None,
            };
            Some(shrink(finding, 20, &mut shows))
        }
        other => other,
    };
    (report.calls, finding)
}
