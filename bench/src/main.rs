//! Our calls beside resynth's own, on the same scripts in one run.
//!
//!     bench [CALL..]                     the tables, in markdown, of all calls or of these
//!     bench once CALL KIND SIZE WHO N    one call N times, for a profiler; WHO is ours or rust
//!     bench script KIND SIZE             the script itself
//!
//! Each row's calls take turns in rounds. A time is the least of all rounds; a ratio is the median of the rounds' ratios.

mod ours;
mod scripts;
mod theirs;

use std::collections::VecDeque;
use std::hint::black_box;
use std::io::Write;
use std::time::{Duration, Instant};

use resynth::Held;
use resynth::ast::Stmt;
use resynth::check::Diagnostic;
use resynth::lex::Token;

use ours::{Rooms, Tables};
use scripts::{KINDS, Kind};

const CALLS: [&str; 7] = ["utf8", "scan by line", "scan whole", "lex", "parse", "canonicalise", "check"];

/// A script with what both sides need to know of it
struct Script {
    bytes: Vec<u8>,
    /// Just enough for this script
    rooms: Rooms,
    /// How many lexemes each line has
    lines: Vec<usize>,
}

impl Script {
    fn new(kind: &Kind, size: usize) -> Self {
        let bytes = kind.script(size);
        let text = str::from_utf8(&bytes).expect("a script is UTF-8");
        let lines: Vec<usize> = text.split_terminator('\n').map(theirs::scan).collect();
        let rooms = Rooms {
            lexemes: theirs::scan(text),
            tokens: theirs::lex(text).len(),
            nodes: theirs::nodes(&theirs::parse(text)) as usize,
            diagnostics: 0,
            statements: 0,
            text: ours::MOST,
        };
        let mut script = Self { bytes, rooms, lines };
        script.rooms.text = script.agree();
        if kind.calls.contains(&"check") {
            script.agree_on_check();
        }
        script
    }

    fn text(&self) -> &str {
        str::from_utf8(&self.bytes).expect("a script is UTF-8")
    }

    /// Both sides find the same lexemes, tokens and number of nodes. Gives the size of the canonical text.
    fn agree(&self) -> usize {
        let mut tables = Tables::new();
        assert_eq!(ours::first_bad(&self.bytes), self.bytes.len());

        let scanned = tables.scan(&self.bytes, self.rooms.lexemes);
        let lexemes = theirs::lexemes(self.text());
        assert_eq!((scanned.verdict.number, scanned.count), (0, lexemes.len() as u64));
        for (row, (end, is_token)) in tables.lexemes.chunks(ours::LEXEME_WORDS).zip(&lexemes) {
            assert_eq!((row[1], row[2] == 3), (*end, *is_token));
        }

        let parsed = tables.parse(&self.bytes, self.rooms);
        assert_eq!(parsed.verdict.number, 0);
        assert_eq!(parsed.count, self.rooms.nodes as u64);
        let lexed = tables.lex(&self.bytes, self.rooms);
        let tokens = theirs::lex(self.text());
        assert_eq!((lexed.verdict.number, lexed.count), (0, tokens.len() as u64));
        for (row, token) in tables.tokens.chunks(ours::TOKEN_WORDS).zip(&tokens) {
            assert_eq!((row[0], row[1], row[2]), theirs::place(token));
        }

        let written = tables.canonicalise(&self.bytes, self.rooms);
        assert_eq!(written.verdict.number, 0);
        written.count as usize
    }

    /// Both sides find the same in a script, which has no errors, and hold as many statements at the same places. Then
    /// there is just room for these.
    fn agree_on_check(&mut self) {
        let (held, found) = theirs::check(self.text(), 0);
        self.rooms.diagnostics = found.len();
        let mut tables = Tables::new();
        // the rows of the statements' parts are counted too
        self.rooms.statements = self.rooms.nodes;
        self.rooms.statements = tables.check(&self.bytes, self.rooms).statements as usize;
        let checked = tables.check(&self.bytes, self.rooms);
        assert_eq!((checked.verdict.number, checked.errors, held.errors), (0, 0, 0));
        assert_eq!(checked.warnings, held.warnings as u64);
        assert_eq!(checked.statements, self.rooms.statements as u64);
        for (row, diag) in tables.diagnostics.chunks(ours::DIAGNOSTIC_WORDS).zip(&found) {
            assert_eq!((row[0], row[1], row[2]), theirs::finding(diag));
        }
        let rows = tables.statements.chunks(ours::STATEMENT_WORDS).take(self.rooms.statements);
        let whole: Vec<&[u64]> = rows.filter(|row| row[2] <= ours::LAST_STATEMENT).collect();
        assert_eq!(whole.len(), held.stmts.len());
        for (row, stmt) in whole.iter().zip(&held.stmts) {
            assert_eq!((row[0], row[1]), (stmt.loc.line() as u64, stmt.loc.col() as u64));
        }
    }
}

/// How much room a call is lent
#[derive(Clone, Copy, PartialEq)]
enum Lent {
    /// As many rows as this script fills
    Just,
    /// As many as a source of its size could fill, which a host knows beforehand
    Sure,
    /// As many as the largest source could fill
    Full,
}

/// Ours, once. The numbers are only there so that nothing is optimised away.
fn ours_once(call: &str, script: &Script, tables: &mut Tables, lent: Lent) -> u64 {
    let bytes = &script.bytes;
    let rooms = match lent {
        Lent::Just => script.rooms,
        Lent::Sure => Rooms::of(bytes.len()),
        Lent::Full => Rooms::of(ours::MOST),
    };
    match call {
        "utf8" => ours::first_bad(bytes) as u64,
        "scan by line" => {
            let lines = bytes.split(|&b| b == b'\n').zip(&script.lines);
            let room = |line: &[u8], just| if lent == Lent::Just { just } else { line.len() };
            lines.map(|(line, just)| tables.scan(line, room(line, *just)).count).sum()
        }
        "scan whole" => tables.scan(bytes, rooms.lexemes).count,
        "lex" => tables.lex(bytes, rooms).count,
        "parse" => tables.parse(bytes, rooms).count,
        "check" => tables.check(bytes, rooms).statements,
        _ => tables.canonicalise(bytes, rooms).count,
    }
}

/// The Rust's answer, kept until it is freed
#[expect(dead_code, reason = "it is freed, and not read")]
enum Kept {
    Count(usize),
    Tokens(VecDeque<Token>),
    Trees(Vec<Stmt>),
    Checked(Held, Vec<Diagnostic>),
}

/// The Rust's, once. Nothing there canonicalises: its lexer stands beside ours that lexes and writes.
fn rust_once(call: &str, text: &str, rooms: Rooms) -> Kept {
    match call {
        "utf8" => Kept::Count(str::from_utf8(black_box(text.as_bytes())).map_or(0, str::len)),
        "scan by line" => Kept::Count(text.split_terminator('\n').map(theirs::scan).sum()),
        "scan whole" => Kept::Count(theirs::scan(text)),
        "lex" | "canonicalise" => Kept::Tokens(theirs::lex(text)),
        "check" => {
            let (held, found) = theirs::check(text, rooms.diagnostics);
            Kept::Checked(held, found)
        }
        _ => Kept::Trees(theirs::parse(text)),
    }
}

/// What is timed in one round, in nanoseconds
#[derive(Clone, Copy)]
struct Round {
    just: f64,
    sure: f64,
    full: f64,
    rust: f64,
    /// The Rust with `from_utf8` before it, as ours takes raw bytes
    from_bytes: f64,
    /// The same, and its answer freed
    freed: f64,
}

struct Row {
    rounds: Vec<Round>,
}

impl Row {
    /// The least time of a column
    fn least(&self, column: fn(&Round) -> f64) -> f64 {
        self.rounds.iter().map(column).fold(f64::MAX, f64::min)
    }

    /// The median of the rounds' quotients: whatever slows a round slows both sides
    fn ratio(&self, over: fn(&Round) -> f64, under: fn(&Round) -> f64) -> f64 {
        median(self.rounds.iter().map(|r| over(r) / under(r)).collect())
    }

    /// Times in microseconds, then how many times faster ours is
    fn print(&self, script: &str, kb: usize, call: &str) {
        let (ours, rust) = (self.least(|r| r.just), self.least(|r| r.rust));
        print!("| {script} | {kb} | {call} | {:.2} | {:.2} |", ours / 1000.0, rust / 1000.0);
        let lends = call != "utf8";
        let ratios = [
            Some(self.ratio(|r| r.rust, |r| r.just)),
            lends.then(|| self.ratio(|r| r.from_bytes, |r| r.just)),
            lends.then(|| self.ratio(|r| r.freed, |r| r.just)),
            lends.then(|| self.ratio(|r| r.rust, |r| r.sure)),
            (lends && call != "scan by line").then(|| self.ratio(|r| r.rust, |r| r.full)),
        ];
        for ratio in ratios {
            match ratio {
                Some(ratio) => print!(" {ratio:.2} |"),
                None => print!(" |"),
            }
        }
        println!();
    }
}

fn median(mut all: Vec<f64>) -> f64 {
    all.sort_by(f64::total_cmp);
    all[all.len() / 2]
}

fn least(turns: u32, mut run: impl FnMut() -> f64) -> f64 {
    (0..turns).map(|_| run()).fold(f64::MAX, f64::min)
}

/// How often a call is made at once, so that the clock does not count
fn several(call: &str) -> u32 {
    if call == "utf8" { 16 } else { 1 }
}

fn nanos(call: &str, since: Instant) -> f64 {
    since.elapsed().as_nanos() as f64 / f64::from(several(call))
}

fn time_ours(call: &str, script: &Script, tables: &mut Tables, lent: Lent) -> f64 {
    let began = Instant::now();
    for _ in 0..several(call) {
        black_box(ours_once(call, black_box(script), tables, lent));
    }
    nanos(call, began)
}

fn time_rust(call: &str, script: &Script, from_bytes: bool, freed: bool) -> f64 {
    let known = script.text();
    let began = Instant::now();
    for _ in 1..several(call) {
        black_box(rust_once(call, black_box(known), script.rooms));
    }
    let text = if from_bytes { script.text() } else { known };
    let kept = black_box(rust_once(call, black_box(text), script.rooms));
    if freed {
        drop(kept);
        return nanos(call, began);
    }
    nanos(call, began)
}

fn measure(call: &str, script: &Script, tables: &mut Tables, budget: Duration) -> Row {
    let mut rounds = Vec::new();
    let began = Instant::now();
    while began.elapsed() < budget {
        rounds.push(Round {
            just: least(8, || time_ours(call, script, tables, Lent::Just)),
            rust: least(8, || time_rust(call, script, false, false)),
            from_bytes: least(8, || time_rust(call, script, true, false)),
            freed: least(8, || time_rust(call, script, true, true)),
            // These empty the caches, so they come last
            sure: least(4, || time_ours(call, script, tables, Lent::Sure)),
            full: least(2, || time_ours(call, script, tables, Lent::Full)),
        });
    }
    Row { rounds }
}

/// How much longer a large script takes than a small one, ours and the Rust's, in rounds of their own
fn growth(call: &str, small: &Script, large: &Script, tables: &mut Tables, budget: Duration) -> (f64, f64) {
    let mut ours = Vec::new();
    let mut rust = Vec::new();
    let began = Instant::now();
    while began.elapsed() < budget {
        let mut time = |script| least(4, || time_ours(call, script, tables, Lent::Just));
        ours.push(time(large) / time(small));
        let time = |script| least(4, || time_rust(call, script, false, false));
        rust.push(time(large) / time(small));
    }
    (median(ours), median(rust))
}

fn table(calls: &[&'static str]) {
    let budget = Duration::from_millis(500);
    let mut tables = Tables::new();
    let mut grown = Vec::new();
    println!("| script | KB | call | ours µs | Rust µs | ratio | with `from_utf8` | and freed | sure room | full room |");
    println!("|---|---|---|---|---|---|---|---|---|---|");
    for kind in &KINDS {
        let calls: Vec<&str> = calls.iter().copied().filter(|call| kind.calls.contains(call)).collect();
        if calls.is_empty() {
            continue;
        }
        let scripts: Vec<Script> = kind.sizes.iter().map(|kb| Script::new(kind, kb * 1024)).collect();
        for call in calls {
            for (script, &kb) in scripts.iter().zip(kind.sizes) {
                measure(call, script, &mut tables, budget).print(kind.name, kb, call);
            }
            let [.., small, large] = &scripts[..] else { continue };
            let (ours, rust) = growth(call, small, large, &mut tables, budget);
            grown.push(format!("| {} | {call} | {ours:.2} | {rust:.2} |", kind.name));
        }
    }
    println!("\n| script | call | ours | Rust |\n|---|---|---|---|");
    for row in grown {
        println!("{row}");
    }
}

fn once(words: &[String]) -> Option<()> {
    let [call, kind, size, who, count] = words else {
        return None;
    };
    let call = CALLS.iter().find(|c| *c == call)?;
    let kind = KINDS.iter().find(|k| k.name == kind)?;
    let script = Script::new(kind, size.parse::<usize>().ok()? * 1024);
    let mut tables = Tables::new();
    for _ in 0..count.parse().ok()? {
        if who == "ours" {
            black_box(ours_once(call, &script, &mut tables, Lent::Just));
        } else {
            black_box(rust_once(call, script.text(), script.rooms));
        }
    }
    Some(())
}

fn script(words: &[String]) -> Option<()> {
    let [kind, size] = words else {
        return None;
    };
    let kind = KINDS.iter().find(|k| k.name == kind)?;
    let bytes = kind.script(size.parse::<usize>().ok()? * 1024);
    let mut output = std::io::stdout();
    output.write_all(&bytes).and_then(|()| output.flush()).expect("standard output takes the script");
    Some(())
}

fn main() {
    let words: Vec<String> = std::env::args().skip(1).collect();
    match words.split_first() {
        None => table(&CALLS),
        Some((word, rest)) if word == "once" && once(rest).is_some() => {}
        Some((word, rest)) if word == "script" && script(rest).is_some() => {}
        _ => {
            let calls: Vec<&'static str> = CALLS.into_iter().filter(|c| words.iter().any(|w| w == c)).collect();
            if calls.len() != words.len() {
                eprintln!("bench [CALL..], once CALL KIND SIZE ours|rust N, or script KIND SIZE; the calls are {CALLS:?}");
                std::process::exit(2);
            }
            table(&calls);
        }
    }
}
