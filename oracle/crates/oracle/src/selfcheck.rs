//! The oracle held against resynth, against itself, and against the samples.

use std::cell::Cell;
use std::process::ExitCode;

use resynth::lex::{LexErrorKind, LexemeKind, Scanner, Tok, Token};
use resynth::str::Buf;
use resynth::{all_uses, check_in, first_named, hold, looks, named};

use crate::answer::{self, Options, Refusal};
use crate::generate::generate;
use crate::text::{escape, unescape};

/// Run the samples. A line `> MODE [--FLAG ..] SOURCE` is followed by the lines of its answer. A
/// blank line and a line that starts with `#` say nothing.
pub fn samples(file: &str) -> ExitCode {
    let mut agree = 0;
    let mut differ = 0;
    let mut lines = file.lines().enumerate().peekable();
    while let Some((i, line)) = lines.next() {
        if line.is_empty() || line.starts_with('#') {
            continue;
        }
        let Some(rest) = line.strip_prefix("> ") else {
            eprintln!("line {}: an answer without a source", i + 1);
            return ExitCode::from(2);
        };
        let (name, mut source) = rest.split_once(' ').unwrap_or((rest, ""));
        let mut opts = Options::default();
        loop {
            let (word, tail) = source.split_once(' ').unwrap_or((source, ""));
            match word {
                "--raw" => opts.raw = true,
                "--wide" => opts.wide = true,
                "--bounds" => opts.bounds = true,
                _ => break,
            }
            source = tail;
        }
        let (Some(mode), Some(src)) = (crate::mode(name), unescape(source)) else {
            eprintln!("line {}: no such mode or escape", i + 1);
            return ExitCode::from(2);
        };
        let mut want = String::new();
        while let Some((_, line)) = lines.next_if(|(_, line)| {
            !line.is_empty() && !line.starts_with("> ") && !line.starts_with('#')
        }) {
            want.push_str(line);
            want.push('\n');
        }
        let mut out = Vec::new();
        crate::answer(&mut out, mode, &src, opts);
        let got = String::from_utf8_lossy(&out);
        if got == want {
            agree += 1;
        } else {
            differ += 1;
            println!("{line}\nwanted\n{want}got\n{got}");
        }
    }
    if differ == 0 && agree > 0 {
        println!("samples: {agree} agree");
        ExitCode::SUCCESS
    } else {
        println!("samples: {agree} agree, {differ} differ");
        ExitCode::FAILURE
    }
}

/// The blanks of the statement of what to build
fn is_blank(n: u32) -> bool {
    matches!(
        n,
        0x9 | 0xb..=0xd
            | 0x20
            | 0x85
            | 0xa0
            | 0x1680
            | 0x2000..=0x200a
            | 0x2028
            | 0x2029
            | 0x202f
            | 0x205f
            | 0x3000
    )
}

/// RFC 3629, section 4: the length of the character at the start, if one starts there
fn character(s: &[u8]) -> Option<usize> {
    let tail = |i: usize, low: u8, high: u8| s.get(i).is_some_and(|&b| low <= b && b <= high);
    let plain = |i: usize| tail(i, 0x80, 0xbf);
    let three = |low, high| tail(1, low, high) && plain(2);
    let four = |low, high| tail(1, low, high) && plain(2) && plain(3);
    match *s.first()? {
        0x00..=0x7f => Some(1),
        0xc2..=0xdf => plain(1).then_some(2),
        0xe0 => three(0xa0, 0xbf).then_some(3),
        0xe1..=0xec | 0xee..=0xef => three(0x80, 0xbf).then_some(3),
        0xed => three(0x80, 0x9f).then_some(3),
        0xf0 => four(0x90, 0xbf).then_some(4),
        0xf1..=0xf3 => four(0x80, 0xbf).then_some(4),
        0xf4 => four(0x80, 0x8f).then_some(4),
        _ => None,
    }
}

/// Where no character starts, stepping by whole characters
fn stuck(s: &[u8]) -> Option<usize> {
    let mut at = 0;
    while at < s.len() {
        match character(&s[at..]) {
            Some(len) => at += len,
            None => return Some(at),
        }
    }
    None
}

fn utf8_agrees(s: &[u8]) -> bool {
    std::str::from_utf8(s).err().map(|err| err.valid_up_to()) == stuck(s)
}

struct Report {
    differ: u64,
}

impl Report {
    fn difference(&mut self, what: &str, src: &[u8]) {
        self.differ += 1;
        if self.differ <= 20 {
            println!("{what}: {}", escape(src));
        }
    }
}

fn characters(report: &mut Report) {
    let mut blanks = 0;
    for c in (0..=0x10ffff).filter_map(char::from_u32) {
        let text = c.to_string();
        let scanned = matches!(
            Scanner::new(&text).next(),
            Some(Ok(lexeme)) if matches!(lexeme.kind, LexemeKind::Trivia)
        );
        let blank = is_blank(u32::from(c));
        blanks += u32::from(blank);
        if scanned != (blank || c == '#') || c.is_whitespace() != (blank || c == '\n') {
            report.difference("blank", text.as_bytes());
        }
    }
    println!("blanks: {blanks} of all characters");

    let mut strings = 0u64;
    let mut each = |s: &[u8], report: &mut Report| {
        strings += 1;
        if !utf8_agrees(s) {
            report.difference("from_utf8", s);
        }
    };
    each(b"", report);
    for n in 0..1u32 << 24 {
        let s = n.to_be_bytes();
        if n < 1 << 8 {
            each(&s[3..], report);
        }
        if n < 1 << 16 {
            each(&s[2..], report);
        }
        each(&s[1..], report);
    }
    let edges = [
        0x00, 0x41, 0x7f, 0x80, 0x81, 0x8f, 0x90, 0x9f, 0xa0, 0xbe, 0xbf, 0xc0, 0xc2, 0xe0, 0xed,
        0xf0, 0xf4, 0xff,
    ];
    for first in 0xe0..=0xff {
        for second in 0..=0xff {
            for third in edges {
                for fourth in edges {
                    each(&[first, second, third, fourth], report);
                }
            }
        }
    }
    println!("from_utf8: {strings} strings against RFC 3629");
}

/// `hold` and the rest of `run` give what `check_in` gives. Of `check_in` the statements are counted as
/// it takes them.
fn checks_agree(src: &[u8], opts: Options, report: &mut Report) {
    let (Ok(ours), Ok(theirs)) = (answer::tree(src, opts), answer::tree(src, opts)) else {
        return;
    };
    let mut our_diags = Vec::new();
    let held = hold(answer::root(opts), ours, |number, diag| {
        answer::numbered(&mut our_diags, number, &diag)
    });
    let (errors, warnings) = (held.errors, held.warnings);
    let ours = held.finish();
    let mut their_diags = Vec::new();
    let taken = Cell::new(0);
    let theirs = theirs.into_iter().inspect(|_| taken.set(taken.get() + 1));
    let theirs = check_in(answer::root(opts), theirs, |diag| {
        answer::numbered(&mut their_diags, taken.get(), &diag)
    });
    let same = our_diags == their_diags
        && match (ours, theirs) {
            (Some(ours), Ok(theirs)) => errors == 0 && format!("{ours:?}") == format!("{theirs:?}"),
            (None, Err(sum)) => sum.errors.get() == errors && sum.warnings == warnings,
            _ => false,
        };
    if !same {
        report.difference("check", src);
    }
}

/// A diagnostic's line in `grouped`: its number, the rest of the line, and the place there
fn numbered(line: &str) -> Option<(usize, &str, (usize, usize))> {
    let (number, rest) = line.split_once(' ')?;
    let mut words = rest.split(' ').map(str::parse);
    let place = (words.next()?.ok()?, words.next()?.ok()?);
    Some((number.parse().ok()?, rest, place))
}

/// No more searches than lets and local uses, and as many where no error stops one; each compares no
/// more than all names. They are counted in a run that finds the errors of the other.
fn looks_few(src: &[u8], opts: Options, report: &mut Report) {
    let Ok(stmts) = answer::tree(src, opts) else {
        return;
    };
    let all = all_uses(&stmts);
    let looks = looks(answer::root(opts), &stmts);
    let errors = hold(answer::root(opts), stmts, |_, _| {}).errors;
    let same = looks.errors == errors
        && looks.comparisons <= looks.searches * looks.names.len()
        && looks.searches <= all
        && (errors > 0 || looks.searches == all);
    if !same {
        report.difference("comparisons", src);
    }
}

/// A call that number 8 refuses has a named argument. Where resynth finds no error everything was judged and every callee is a
/// function, so it is the first call with one; and where no call has one there is none.
fn named_agrees(src: &[u8], opts: Options, report: &mut Report) {
    let Ok(stmts) = answer::tree(src, opts) else {
        return;
    };
    let first = first_named(&stmts);
    let found = named(answer::root(opts), &stmts);
    let errors = hold(answer::root(opts), stmts, |_, _| {}).errors;
    let whole = first.is_none() || errors == 0;
    let same = found.is_none_or(|call| first.is_some_and(|least| least <= call)) && (!whole || found == first);
    if !same {
        report.difference("named", src);
    }
}

/// What `grouped` says of each diagnostic, its number aside, is what `check` says, and so are the
/// counts before `comparisons`. Numbers never fall, each has one error at most, and each is that of
/// the `;` which ends the statement, counted in the tokens.
fn groups_agree(src: &[u8], opts: Options, report: &mut Report) {
    let told = |mode: crate::Mode| {
        let mut out = Vec::new();
        mode(&mut out, src, opts);
        String::from_utf8(out).expect("an answer is text")
    };
    let check = told(answer::check);
    let grouped = told(answer::grouped);
    let findings = check.lines().filter(|line| !line.starts_with("stmt "));
    let plain = grouped
        .lines()
        .map(|line| {
            line.split_once(" comparisons ")
                .map_or(line, |(counts, _)| counts)
        })
        .map(|line| numbered(line).map_or(line, |(_, rest, _)| rest));
    let found: Vec<_> = grouped.lines().filter_map(numbered).collect();
    let errors: Vec<usize> = found
        .iter()
        .filter(|(_, rest, _)| rest.split(' ').nth(2) == Some("E"))
        .map(|&(number, ..)| number)
        .collect();
    let ends: Vec<(usize, usize)> = answer::tokens(src, opts)
        .iter()
        .flatten()
        .filter(|tok| *tok.tok() == Tok::SemiColon)
        .map(|tok| (tok.loc().line(), tok.loc().col()))
        .collect();
    let same = plain.eq(findings)
        && found.is_sorted_by_key(|&(number, ..)| number)
        && errors.is_sorted_by(|a, b| a < b)
        && found.iter().all(|&(number, _, place)| {
            number == 1 + ends.iter().filter(|&&end| end < place).count()
        });
    if !same {
        report.difference("grouped", src);
    }
}

/// A raw token, decoded
fn decoded(tok: &Tok) -> Option<Tok> {
    let Tok::StringLiteral(bodies) = tok else {
        return Some(tok.clone());
    };
    let mut bytes = Vec::new();
    for body in bodies.as_ref().split(|&b| b == b'\n') {
        Buf::decode_literal_into(std::str::from_utf8(body).ok()?, &mut bytes).ok()?;
    }
    Some(Tok::StringLiteral(Buf::from(bytes)))
}

/// The raw tokens are resynth's own, strings aside
fn tokens_agree(src: &[u8], report: &mut Report) {
    let opts = Options::default();
    let raw = Options { raw: true, ..opts };
    let same = match (answer::tokens(src, opts), answer::tokens(src, raw)) {
        (Ok(plain), Ok(raw)) => {
            plain.len() == raw.len()
                && plain.iter().zip(&raw).all(|(p, r): (&Token, &Token)| {
                    p.loc() == r.loc() && decoded(r.tok()).as_ref() == Some(p.tok())
                })
        }
        (Err(Refusal::Lex(plain)), raw) => match (&plain.kind, raw) {
            (LexErrorKind::StringLiteral(_), Ok(_) | Err(Refusal::Lex(_))) => true,
            (_, Err(Refusal::Lex(raw))) => plain == raw,
            _ => false,
        },
        (Err(Refusal::Utf8(plain)), Err(Refusal::Utf8(raw))) => plain == raw,
        _ => false,
    };
    if !same {
        report.difference("tokens", src);
    }
}

/// Spans are not empty and join to the line
fn spans_join(src: &[u8], report: &mut Report) {
    let Ok(line) = std::str::from_utf8(src) else {
        return;
    };
    let mut end = 0;
    for lexeme in Scanner::new(line) {
        let span = match lexeme {
            Ok(lexeme) => lexeme.span,
            Err(err) => err.span,
        };
        if span.start != end || span.is_empty() {
            report.difference("spans", src);
            return;
        }
        end = span.end;
    }
    if end != line.len() {
        report.difference("spans", src);
    }
}

pub fn selfcheck(seed: u64, count: u64) -> ExitCode {
    let mut report = Report { differ: 0 };
    characters(&mut report);

    let mut sources = 0u64;
    let random =
        ["mixed", "programs", "calls", "bindings", "judgements", "names", "lines"].map(|kind| (kind, seed));
    let short = [0, 1, 2, 3, 4].map(|alphabet| ("short", alphabet));
    for (kind, seed) in random.into_iter().chain(short) {
        generate(kind, seed, count, &mut |src| {
            sources += 1;
            if !utf8_agrees(src) {
                report.difference("from_utf8", src);
            }
            spans_join(src, &mut report);
            tokens_agree(src, &mut report);
            for wide in [false, true] {
                for raw in [false, true] {
                    let opts = Options {
                        wide,
                        raw,
                        ..Options::default()
                    };
                    checks_agree(src, opts, &mut report);
                    groups_agree(src, opts, &mut report);
                    looks_few(src, opts, &mut report);
                    named_agrees(src, opts, &mut report);
                }
            }
            Ok(())
        })
        .expect("nothing is written");
    }
    println!("sources: {sources}");
    if report.differ == 0 {
        println!("self: all agree");
        ExitCode::SUCCESS
    } else {
        println!("self: {} differ", report.differ);
        ExitCode::FAILURE
    }
}
