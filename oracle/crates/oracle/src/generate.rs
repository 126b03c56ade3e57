//! Sources to compare answers on. Source number i of a kind depends on the seed and i alone.

use std::io;

pub const KINDS: [&str; 13] = [
    "short",
    "tokens",
    "programs",
    "calls",
    "damaged",
    "judgements",
    "names",
    "sizes",
    "blanks",
    "utf8",
    "numbers",
    "lines",
    "mixed",
];

/// Give `count` sources of a kind to `emit`. A list that ends sooner ends there. False if there is
/// no such kind.
pub fn generate(
    kind: &str,
    seed: u64,
    count: u64,
    emit: &mut dyn FnMut(&[u8]) -> io::Result<()>,
) -> io::Result<bool> {
    match kind {
        "short" => short(seed, count, emit)?,
        "sizes" => {
            for make in SIZES.iter().skip(seed as usize).take(count as usize) {
                emit(&make())?;
            }
        }
        _ => {
            let Some(make) = random_kind(kind) else {
                return Ok(false);
            };
            for i in 0..count {
                emit(&make(&mut Rng::new(seed, i), i))?;
            }
        }
    }
    Ok(true)
}

type Make = fn(&mut Rng, u64) -> Vec<u8>;

fn random_kind(kind: &str) -> Option<Make> {
    Some(match kind {
        "tokens" => |rng, _| tokens(rng),
        "programs" => |rng, _| programs(rng),
        "calls" => |rng, _| calls(rng),
        "bindings" => bindings,
        "damaged" => |rng, _| damaged(rng),
        "judgements" => judgements,
        "names" => names,
        "blanks" => blanks,
        "utf8" => utf8,
        "numbers" => |rng, _| numbers(rng),
        "lines" => |rng, _| lines(rng),
        "mixed" => |rng, _| mixed(rng),
        _ => return None,
    })
}

/// splitmix64
pub struct Rng(u64);

impl Rng {
    pub fn new(seed: u64, index: u64) -> Self {
        let mut start = Self(seed);
        let a = start.next();
        let mut mixed = Self(a ^ index.wrapping_mul(0xd6e8_feb8_6659_fd93));
        Self(mixed.next())
    }

    pub fn next(&mut self) -> u64 {
        self.0 = self.0.wrapping_add(0x9e37_79b9_7f4a_7c15);
        let mut z = self.0;
        z = (z ^ (z >> 30)).wrapping_mul(0xbf58_476d_1ce4_e5b9);
        z = (z ^ (z >> 27)).wrapping_mul(0x94d0_49bb_1331_11eb);
        z ^ (z >> 31)
    }

    /// Less than `n`, which is not 0
    fn below(&mut self, n: usize) -> usize {
        ((u128::from(self.next()) * n as u128) >> 64) as usize
    }

    /// True once in `n` times
    fn once_in(&mut self, n: usize) -> bool {
        self.below(n) == 0
    }

    fn pick<'a, T: ?Sized>(&mut self, from: &[&'a T]) -> &'a T {
        from[self.below(from.len())]
    }
}

// Short strings, all of them

/// The letters of each alphabet, chosen by the seed modulo their number
#[rustfmt::skip]
const ALPHABETS: [&[&[u8]]; 5] = [
    // What matters to the scanner
    &[
        b"0", b"1", b"x", b"a", b"_", b".", b":", b"/", b"\"", b"#", b";", b"(", b"@", b" ", b"\n",
        b"\r", b"\xc2\xa0", b"\xc3\xa9",
    ],
    // Numbers
    &[
        b"0", b"1", b"2", b"5", b"9", b".", b"x", b"X", b"a", b"_", b" ",
    ],
    // Sentences
    &[
        b"let ", b"import ", b"x", b" y", b"true", b"1.2.3.4", b" 80", b"\"s\"", b"=", b";", b":",
        b"::", b".", b"/", b"(", b")", b",",
    ],
    // Statements
    &[
        b"import bench;",
        b"import nope;",
        b"let x = 70000;",
        b"let x = 1.2.3.4;",
        b"let y = x;",
        b"let y = x/bench::BIG;",
        b"let y = nope::z;",
        b"let y = bench::deep;",
        b"x;",
        b"y;",
        b"x/x;",
        b"y.z;",
        b"x/y/z;",
        b"bench::deep::ZERO;",
        b"bench::HTTP::z;",
        b"bench::ping;",
        b"\"s\"/q;",
    ],
    // Characters
    &[
        b"a", b"\n", b"\x00", b"\x7f", b"\x80", b"\x8f", b"\x90", b"\x9f", b"\xa0", b"\xbf",
        b"\xc0", b"\xc1", b"\xc2", b"\xdf", b"\xe0", b"\xe1", b"\xed", b"\xef", b"\xf0", b"\xf1",
        b"\xf4", b"\xf5", b"\xff",
    ],
];

fn short(seed: u64, count: u64, emit: &mut dyn FnMut(&[u8]) -> io::Result<()>) -> io::Result<()> {
    let letters = ALPHABETS[(seed % ALPHABETS.len() as u64) as usize];
    let mut digits: Vec<usize> = Vec::new();
    let mut src = Vec::new();
    for _ in 0..count {
        src.clear();
        for &d in &digits {
            src.extend_from_slice(letters[d]);
        }
        emit(&src)?;
        // The next one: by length, then in the order of the letters
        let mut at = digits.len();
        loop {
            if at == 0 {
                digits.insert(0, 0);
                break;
            }
            at -= 1;
            digits[at] += 1;
            if digits[at] < letters.len() {
                break;
            }
            digits[at] = 0;
        }
    }
    Ok(())
}

// Pieces

const NAMES: [&str; 24] = [
    "a", "b", "c", "x", "y", "z", "x1", "_", "__", "bench", "deep", "HTTP", "LOOP", "BIG", "ON",
    "BANNER", "ZERO", "ping", "nope", "lets", "imports", "truely", "False", "q_9",
];

const CALL_NAMES: [&str; 6] = ["ping", "pause", "burst", "mark", "pick", "host"];

const BLANKS: [char; 25] = [
    '\u{9}', '\u{b}', '\u{c}', '\u{d}', '\u{20}', '\u{85}', '\u{a0}', '\u{1680}', '\u{2000}',
    '\u{2001}', '\u{2002}', '\u{2003}', '\u{2004}', '\u{2005}', '\u{2006}', '\u{2007}', '\u{2008}',
    '\u{2009}', '\u{200a}', '\u{2028}', '\u{2029}', '\u{202f}', '\u{205f}', '\u{3000}', '\u{a}',
];

/// Bodies that decode
#[rustfmt::skip]
const BODIES: [&str; 12] = [
    "", "ok", "a b", "|00|", "|0a 0B|", "|0:1.2_3-4'5`67|", "x|41|y", "||", "#;//", "\\n", "~!",
    "(a,)",
];

/// Bodies that do not
#[rustfmt::skip]
const BAD_BODIES: [&str; 8] = [
    "\u{e9}", "|0|", "|zz|", "|00", "\t", "a|", "|\u{20ac}|", "\u{7f}",
];

fn trivia(rng: &mut Rng) -> String {
    match rng.below(12) {
        0..=4 => " ".into(),
        5 => "\n".into(),
        6 => "\t".into(),
        7 => "  \r\n".into(),
        8 => format!(
            "# {}\n",
            rng.pick(&["", "let x = 1;", "\"", "\u{e9}", "//"])
        ),
        9 => format!("//{}\n", rng.pick(&["", " x", "\"", "\u{2028}", "#"])),
        10 => {
            let n = 1 + rng.below(3);
            (0..n).map(|_| BLANKS[rng.below(BLANKS.len())]).collect()
        }
        _ => format!("{}{}", trivia(rng), trivia(rng)),
    }
}

fn name(rng: &mut Rng) -> String {
    if rng.once_in(8) {
        let n = 1 + rng.below(6);
        let first = b"abcxyzABCXYZ_";
        let more = b"abcxyzABCXYZ_0189";
        let mut out = String::from(char::from(first[rng.below(first.len())]));
        for _ in 1..n {
            out.push(char::from(more[rng.below(more.len())]));
        }
        return match out.as_str() {
            "let" | "import" | "true" | "false" => "x".into(),
            _ => out,
        };
    }
    rng.pick(&NAMES).into()
}

/// A number near a power of two, or a small one, or any
fn value(rng: &mut Rng) -> u128 {
    const EDGES: [u32; 14] = [0, 1, 4, 7, 8, 15, 16, 31, 32, 63, 64, 65, 126, 127];
    match rng.below(4) {
        0 => rng.below(300) as u128,
        1 => u128::from(rng.next()) >> rng.below(64),
        2 => ((u128::from(rng.next()) << 63) | u128::from(rng.next() >> 1)) >> rng.below(127),
        _ => {
            let edge = 1u128 << EDGES[rng.below(EDGES.len())];
            let off = rng.below(5) as u128;
            (edge + off).saturating_sub(2)
        }
    }
}

/// A value that a literal may have
fn good_value(rng: &mut Rng) -> u128 {
    value(rng) & (u128::MAX >> 1)
}

fn int(rng: &mut Rng, n: u128) -> String {
    match rng.below(5) {
        0 => format!("{n:#x}"),
        1 => format!("0x{:0width$X}", n, width = rng.below(40)),
        _ => n.to_string(),
    }
}

fn byte(rng: &mut Rng) -> usize {
    const EDGES: [usize; 12] = [0, 1, 9, 10, 99, 100, 127, 199, 200, 249, 250, 255];
    if rng.once_in(2) {
        EDGES[rng.below(EDGES.len())]
    } else {
        rng.below(256)
    }
}

fn quad(rng: &mut Rng) -> String {
    format!("{}.{}.{}.{}", byte(rng), byte(rng), byte(rng), byte(rng))
}

fn body(rng: &mut Rng) -> String {
    match rng.below(24) {
        0 => rng.pick(&BAD_BODIES).into(),
        1..=5 => {
            let n = rng.below(12);
            (0..n)
                .map(|_| char::from(b' ' + rng.below(95) as u8))
                .filter(|&c| c != '"' && c != '|')
                .collect()
        }
        _ => rng.pick(&BODIES).into(),
    }
}

// Token strings

fn any_token(rng: &mut Rng) -> String {
    match rng.below(20) {
        0..=7 => rng
            .pick(&["(", ")", ".", "::", ":", ";", "=", ",", "/"])
            .into(),
        8 => rng.pick(&["let", "import"]).into(),
        9 => rng.pick(&["true", "false"]).into(),
        10..=12 => name(rng),
        13 | 14 => {
            let n = value(rng);
            int(rng, n)
        }
        15 | 16 => quad(rng),
        17 | 18 => format!("\"{}\"", body(rng)),
        _ => match rng.below(6) {
            0 => format!("{}{}", rng.pick(&["0", "00", "1", "0x", "0xf"]), name(rng)),
            1 => format!("{}.{}", quad(rng), byte(rng)),
            2 => format!("{}.{}", byte(rng), byte(rng)),
            3 => rng
                .pick(&["@", "\u{e9}", "\0", "-", "\u{1f600}", "'"])
                .into(),
            4 => "\"".into(),
            _ => format!("0{}", byte(rng)),
        },
    }
}

fn tokens(rng: &mut Rng) -> Vec<u8> {
    let most = if rng.once_in(8) { 60 } else { 10 };
    let n = 1 + rng.below(most);
    let sparse = rng.once_in(2);
    let mut out = String::new();
    for _ in 0..n {
        out.push_str(&any_token(rng));
        if sparse || rng.once_in(3) {
            out.push_str(&trivia(rng));
        }
    }
    out.into_bytes()
}

// Programs

/// What a let was given, as far as the generator keeps track
#[derive(Clone, Copy, PartialEq)]
enum Sort {
    Int,
    Bool,
    Ip,
    Sock,
    Bytes,
    Pkt,
    Other,
}

const SORTS: [Sort; 7] = [
    Sort::Int,
    Sort::Bool,
    Sort::Ip,
    Sort::Sock,
    Sort::Bytes,
    Sort::Pkt,
    Sort::Other,
];

/// A program as its tokens' texts
struct Program {
    toks: Vec<String>,
    lets: Vec<(String, Sort)>,
    calls: bool,
    /// How often a wanted sort is ignored: once in so many times
    slips: usize,
    depth: usize,
}

impl Program {
    fn new(calls: bool, slips: usize) -> Self {
        Self {
            toks: Vec::new(),
            lets: Vec::new(),
            calls,
            slips,
            depth: 0,
        }
    }

    fn put(&mut self, tok: impl Into<String>) {
        self.toks.push(tok.into());
    }

    fn path(&mut self, names: &[&str]) {
        for (i, name) in names.iter().enumerate() {
            if i > 0 {
                self.put("::");
            }
            self.put(*name);
        }
    }

    fn strings(&mut self, rng: &mut Rng) {
        loop {
            // A body that does not decode ends the comparison, so it is rare here
            let body = match rng.below(20) {
                0 => body(rng),
                _ => rng.pick(&BODIES).into(),
            };
            self.put(format!("\"{body}\""));
            if !rng.once_in(4) {
                return;
            }
        }
    }

    fn local(&mut self, rng: &mut Rng, sort: Sort) -> bool {
        let fitting: Vec<usize> = (0..self.lets.len())
            .filter(|&i| self.lets[i].1 == sort)
            .collect();
        if fitting.is_empty() {
            return false;
        }
        let name = self.lets[fitting[rng.below(fitting.len())]].0.clone();
        self.put(name);
        true
    }

    fn call(&mut self, rng: &mut Rng, func: &str, params: &[Sort]) {
        self.path(&["bench", func]);
        self.put("(");
        let n = match rng.below(3 * self.slips) {
            0 => rng.below(4),
            _ => params.len(),
        };
        self.depth += 1;
        for i in 0..n {
            if i > 0 {
                self.put(",");
            }
            if rng.once_in(6 * self.slips) {
                let name = match rng.below(3) {
                    0 => name(rng),
                    _ => rng
                        .pick(&["to", "time", "body", "on", "port", "number"])
                        .into(),
                };
                self.put(name);
                self.put(":");
            }
            let sort = params.get(i).copied().unwrap_or(Sort::Int);
            self.expr(rng, sort);
        }
        self.depth -= 1;
        if n > 0 && rng.once_in(6) {
            self.put(",");
        }
        self.put(")");
    }

    /// An expression, of the wanted sort if all goes well
    fn expr(&mut self, rng: &mut Rng, sort: Sort) {
        let sort = match rng.below(self.slips) {
            0 => SORTS[rng.below(SORTS.len())],
            _ => sort,
        };
        if rng.once_in(3) && self.local(rng, sort) {
            return;
        }
        let calls = self.calls && self.depth < 4;
        match sort {
            Sort::Int => match rng.below(8) {
                0 => self.path(&["bench", "HTTP"]),
                1 => self.path(&["bench", "BIG"]),
                2 => self.path(&["bench", "deep", "ZERO"]),
                3 if calls => self.call(rng, "pick", &[Sort::Int]),
                _ => {
                    let n = good_value(rng);
                    let n = int(rng, n);
                    self.put(n);
                }
            },
            Sort::Bool => match rng.below(3) {
                0 => self.path(&["bench", "ON"]),
                1 => self.put("true"),
                _ => self.put("false"),
            },
            Sort::Ip => match rng.below(4) {
                0 => self.path(&["bench", "LOOP"]),
                1 if calls => self.call(rng, "host", &[Sort::Int]),
                _ => self.put(quad(rng)),
            },
            Sort::Sock => match rng.below(3) {
                0 => {
                    self.put(quad(rng));
                    self.put(":");
                    let port = good_value(rng) & 0xffff;
                    self.put(port.to_string());
                }
                _ => {
                    self.expr(rng, Sort::Ip);
                    self.put("/");
                    let port = if rng.once_in(6) {
                        Sort::Bool
                    } else {
                        Sort::Int
                    };
                    self.expr(rng, port);
                }
            },
            Sort::Bytes => match rng.below(4) {
                0 => self.path(&["bench", "BANNER"]),
                _ => self.strings(rng),
            },
            Sort::Pkt => {
                if calls {
                    match rng.below(5) {
                        0 => self.call(rng, "pause", &[Sort::Int]),
                        1 => self.call(rng, "burst", &[Sort::Sock, Sort::Bytes]),
                        2 => self.call(rng, "mark", &[Sort::Bool]),
                        _ => self.call(rng, "ping", &[Sort::Ip]),
                    }
                } else {
                    self.path(&["bench", "ping"]);
                }
            }
            Sort::Other => self.odd(rng),
        }
    }

    /// Any expression that the grammar has
    fn odd(&mut self, rng: &mut Rng) {
        match rng.below(8) {
            0 | 1 => self.put(name(rng)),
            2..=4 => {
                let n = 2 + rng.below(3);
                for i in 0..n {
                    let name = match (i, rng.below(4)) {
                        (0, 0 | 1) | (_, 0) => name(rng),
                        (0, _) => "bench".into(),
                        (_, 1) => rng.pick(&CALL_NAMES).into(),
                        _ => rng
                            .pick(&["deep", "HTTP", "LOOP", "BIG", "ZERO", "ping"])
                            .into(),
                    };
                    if i > 0 {
                        self.put("::");
                    }
                    self.put(name);
                }
            }
            _ => {
                let sort = SORTS[rng.below(6)];
                self.expr(rng, sort);
            }
        }
        if self.depth >= 4 {
            return;
        }
        self.depth += 1;
        while rng.once_in(3) {
            match rng.below(4) {
                0 if self.calls => {
                    self.put("(");
                    while rng.once_in(2) {
                        if rng.once_in(4) {
                            self.put(name(rng));
                            self.put(":");
                        }
                        let sort = SORTS[rng.below(SORTS.len())];
                        self.expr(rng, sort);
                        self.put(",");
                    }
                    if self.toks.last().is_some_and(|t| t == ",") && rng.once_in(2) {
                        self.toks.pop();
                    }
                    self.put(")");
                }
                1 | 2 => {
                    self.put("/");
                    let sort = SORTS[rng.below(SORTS.len())];
                    self.expr(rng, sort);
                }
                _ => {
                    self.put(".");
                    self.put(name(rng));
                }
            }
        }
        self.depth -= 1;
    }

    fn stmt(&mut self, rng: &mut Rng) {
        match rng.below(10) {
            0 => {
                self.put("import");
                let name = match rng.below(3) {
                    0 => name(rng),
                    _ => "bench".into(),
                };
                self.put(name);
            }
            1..=5 => {
                self.put("let");
                // Mostly a new name
                let name = match rng.below(8) {
                    0 => name(rng),
                    1 if !self.lets.is_empty() => self.lets[rng.below(self.lets.len())].0.clone(),
                    _ => format!("{}{}", rng.pick(&["v", "w_", "HTTP"]), self.lets.len()),
                };
                self.put(name.clone());
                self.put("=");
                let sort = SORTS[rng.below(SORTS.len())];
                self.expr(rng, sort);
                self.lets.push((name, sort));
            }
            _ => {
                let sort = match rng.below(3) {
                    0 if self.calls => Sort::Pkt,
                    _ => SORTS[rng.below(SORTS.len())],
                };
                self.expr(rng, sort);
            }
        }
        self.put(";");
    }

    /// The text, with as little between tokens as may be, or one space, or anything
    fn text(self, rng: &mut Rng) -> Vec<u8> {
        let style = rng.below(4);
        let mut out = String::new();
        if style == 3 && rng.once_in(2) {
            out.push_str(&trivia(rng));
        }
        for tok in &self.toks {
            let word = |c: char| c.is_ascii_alphanumeric() || c == '_';
            let first = tok.chars().next().unwrap_or(' ');
            let joins = match out.chars().last() {
                Some(last) => {
                    (word(last) && word(first))
                        || (last == ':' && first == ':')
                        || (last == '/' && first == '/')
                }
                None => false,
            };
            match style {
                0 if joins => out.push(' '),
                0 => {}
                1 if out.is_empty() || out.ends_with('\n') || tok == ";" => {}
                1 => out.push(' '),
                2 => out.push(if out.ends_with(';') { '\n' } else { ' ' }),
                _ if joins || rng.once_in(2) => {
                    // A comment after a slash would take the slash in
                    if out.ends_with('/') {
                        out.push(' ');
                    }
                    out.push_str(&trivia(rng));
                }
                _ => {}
            }
            out.push_str(tok);
            if style == 1 && tok == ";" {
                out.push('\n');
            }
        }
        if style >= 2 && rng.once_in(2) {
            out.push_str(rng.pick(&["\n", " ", "# end", "//", "\n\n", "\r\n"]));
        }
        out.into_bytes()
    }
}

fn program(rng: &mut Rng, calls: bool) -> Vec<u8> {
    let slips = rng.pick(&[&4usize, &12, &60]);
    let mut program = Program::new(calls, *slips);
    if !rng.once_in(6) {
        program.put("import");
        program.put("bench");
        program.put(";");
    }
    let most = if rng.once_in(10) { 40 } else { 9 };
    let n = rng.below(most);
    for _ in 0..n {
        program.stmt(rng);
    }
    program.text(rng)
}

fn programs(rng: &mut Rng) -> Vec<u8> {
    let calls = rng.once_in(8);
    program(rng, calls)
}

fn calls(rng: &mut Rng) -> Vec<u8> {
    program(rng, true)
}

// Judgements

/// Where a type, a port or the bound on an integer ends, and what is left of it modulo 2^16
#[rustfmt::skip]
const JUDGED_INTS: [u128; 20] = [
    0, 1, 80, 255, 256, 65_535, 65_536, 65_537, 65_616, 70_000, 131_071, u32::MAX as u128,
    1 << 32, (1 << 32) + 1, u64::MAX as u128, 1 << 64, (1 << 64) + 80, (1 << 80) + 65_536,
    (1 << 127) - 65_536, (1 << 127) - 1,
];

/// Paths that are values, each of another type
const GOOD_PATHS: [&[&str]; 7] = [
    &["bench", "HTTP"],
    &["bench", "LOOP"],
    &["bench", "BIG"],
    &["bench", "ON"],
    &["bench", "BANNER"],
    &["bench", "ping"],
    &["bench", "deep", "ZERO"],
];

/// Paths that fail in each way at each name: no item, no module, no value. Some fail in two ways,
/// and the first name decides
const BAD_PATHS: [&[&str]; 20] = [
    &["bench", "deep"],
    &["bench", "nope"],
    &["bench", "bench"],
    &["bench", "http"],
    &["bench", "HTTPS"],
    &["bench", "HTT"],
    &["bench", "ZERO"],
    &["bench", "HTTP", "x"],
    &["bench", "ping", "deep"],
    &["bench", "nope", "x"],
    &["bench", "ZERO", "x"],
    &["bench", "deep", "x"],
    &["bench", "deep", "HTTP"],
    &["bench", "deep", "deep"],
    &["bench", "deep", "ZERO", "x"],
    &["bench", "deep", "x", "ZERO"],
    &["bench", "LOOP", "x", "y", "z"],
    &["deep", "ZERO"],
    &["nope", "x"],
    &["ping", "bench", "HTTP"],
];

/// Modules that are there, and names that are none: of items, of inner modules, of others
const MODULES: [&str; 14] = [
    "bench", "bench", "bench", "bench", "nope", "nope", "deep", "HTTP", "ping", "Bench", "benc",
    "benchs", "v0", "q",
];

impl Program {
    fn judged_int(&mut self, rng: &mut Rng) {
        let n = match rng.below(5) {
            0 => good_value(rng),
            _ => JUDGED_INTS[rng.below(JUDGED_INTS.len())],
        };
        let n = int(rng, n);
        self.put(n);
    }

    /// A name that a `let` had before, bound or failed
    fn bound_name(&self, rng: &mut Rng) -> Option<String> {
        match self.lets.len() {
            0 => None,
            n => Some(self.lets[rng.below(n)].0.clone()),
        }
    }

    /// A value of any type, or a failure of any kind
    fn operand(&mut self, rng: &mut Rng) {
        match rng.below(16) {
            0..=2 => self.judged_int(rng),
            3 => self.put(rng.pick(&["true", "false"])),
            4 => self.put(quad(rng)),
            5 => {
                self.put(quad(rng));
                self.put(":");
                self.put(rng.below(65_536).to_string());
            }
            6 => self.strings(rng),
            7 | 8 => self.path(GOOD_PATHS[rng.below(GOOD_PATHS.len())]),
            9 | 10 => self.path(BAD_PATHS[rng.below(BAD_PATHS.len())]),
            11 => self.put(name(rng)),
            _ => match self.bound_name(rng) {
                Some(name) => self.put(name),
                None => self.put("q"),
            },
        }
    }

    fn address(&mut self, rng: &mut Rng) {
        match rng.below(4) {
            0 if self.local(rng, Sort::Ip) => {}
            1 => self.path(&["bench", "LOOP"]),
            _ => self.put(quad(rng)),
        }
    }

    /// Steps after an operand: operands of `/`, and members
    fn judged_steps(&mut self, rng: &mut Rng) {
        while rng.once_in(3) {
            if rng.once_in(3) {
                self.put(".");
                self.put(name(rng));
            } else {
                self.put("/");
                self.operand(rng);
            }
        }
    }

    fn judged_expr(&mut self, rng: &mut Rng) {
        match rng.below(4) {
            // Mostly a socket
            0 | 1 => {
                self.address(rng);
                self.put("/");
                if rng.once_in(2) {
                    self.judged_int(rng);
                } else {
                    self.operand(rng);
                }
            }
            _ => self.operand(rng),
        }
        self.judged_steps(rng);
        if rng.once_in(200) {
            self.put("(");
            self.put(")");
        }
    }

    fn import(&mut self, name: &str) {
        self.put("import");
        self.put(name);
        self.put(";");
    }

    fn let_of(&mut self, name: &str, sort: Sort) {
        self.put("let");
        self.put(name);
        self.put("=");
        self.lets.push((name.into(), sort));
    }

    fn judged_let(&mut self, rng: &mut Rng) {
        let name = match rng.below(6) {
            0 => self.bound_name(rng),
            1 => Some(name(rng)),
            _ => None,
        };
        let name = name.unwrap_or_else(|| format!("v{}", self.lets.len()));
        if rng.once_in(5) {
            self.let_of(&name, Sort::Ip);
            self.address(rng);
        } else {
            self.let_of(&name, Sort::Other);
            self.judged_expr(rng);
        }
        self.put(";");
    }

    /// A name that fails, names that fail through it, and uses of them that say nothing
    fn poison(&mut self, rng: &mut Rng) {
        let first = format!("p{}", self.lets.len());
        self.let_of(&first, Sort::Other);
        match rng.below(4) {
            0 => self.path(BAD_PATHS[rng.below(BAD_PATHS.len())]),
            1 => self.put(first.clone()),
            2 => {
                self.judged_int(rng);
                self.put("/");
                self.put("q");
            }
            _ => self.put("q"),
        }
        self.put(";");
        let mut last = first;
        for _ in 0..rng.below(4) {
            let next = format!("p{}", self.lets.len());
            self.let_of(&next, Sort::Other);
            self.use_of(rng, &last);
            last = next;
        }
        self.use_of(rng, &last);
        if rng.once_in(2) {
            self.let_of(&last, Sort::Other);
            self.judged_expr(rng);
            self.put(";");
        }
    }

    /// An expression that needs a name, up to its `;`
    fn use_of(&mut self, rng: &mut Rng, name: &str) {
        match rng.below(5) {
            0 => {
                self.address(rng);
                self.put("/");
                self.put(name);
            }
            1 => {
                self.put(name);
                self.put("/");
                self.operand(rng);
            }
            2 => {
                self.put(name);
                self.put(".");
                self.put("x");
            }
            3 => {
                // The warning stands before the name
                self.address(rng);
                self.put("/");
                self.judged_int(rng);
                self.put("/");
                self.put(name);
            }
            _ => self.put(name),
        }
        self.put(";");
    }
}

/// Around 512 names of `let` and 64 of `import`, in any order, some more than once
fn crowded(rng: &mut Rng) -> Vec<u8> {
    let mut program = Program::new(false, 4);
    let lets = 510 + rng.below(4);
    let imports = [0, 63, 64, 65][rng.below(4)];
    // One let in so many has a value that may fail
    let same = [1, 80][rng.below(2)];
    let mut modules = 0;
    while program.lets.len() < lets || modules < imports {
        match rng.below(32) {
            0 => {
                program.operand(rng);
                program.put(";");
            }
            1 if modules > 0 => program.import(&format!("m{}", rng.below(modules))),
            2 if !program.lets.is_empty() => {
                program.put("let");
                program.put(format!("w{}", rng.below(program.lets.len())));
                program.put("=");
                program.operand(rng);
                program.put(";");
            }
            3..=6 if modules < imports => {
                program.import(&format!("m{modules}"));
                modules += 1;
            }
            _ if program.lets.len() < lets => {
                let name = format!("w{}", program.lets.len());
                program.let_of(&name, Sort::Other);
                if rng.once_in(same) {
                    program.operand(rng);
                } else {
                    program.put("7");
                }
                program.put(";");
            }
            _ => {}
        }
    }
    program.text(rng)
}

/// Hardly an error, so that the statements are held: values of each type, plain and through names
fn sound(rng: &mut Rng) -> Vec<u8> {
    let mut program = Program::new(false, 1000);
    for _ in 0..1 + rng.below(2) {
        program.import("bench");
    }
    for _ in 0..rng.below(14) {
        let sort = SORTS[rng.below(6)];
        match rng.below(4) {
            0 => {
                let name = format!("v{}", program.lets.len());
                program.let_of(&name, sort);
                program.expr(rng, sort);
            }
            // As a statement an integer must have a type
            1 if sort == Sort::Int => {
                let n = JUDGED_INTS[rng.below(JUDGED_INTS.len())] & u128::from(u64::MAX);
                let n = int(rng, n);
                program.put(n);
            }
            _ if sort == Sort::Int => program.path(rng.pick(&[
                &["bench", "HTTP"][..],
                &["bench", "BIG"],
                &["bench", "deep", "ZERO"],
            ])),
            _ => program.expr(rng, sort),
        }
        program.put(";");
    }
    program.text(rng)
}

fn judgements(rng: &mut Rng, i: u64) -> Vec<u8> {
    if i % 256 == 255 {
        return crowded(rng);
    }
    if rng.once_in(3) {
        return sound(rng);
    }
    let mut program = Program::new(false, 4);
    if !rng.once_in(4) {
        program.import("bench");
    }
    let most = if rng.once_in(12) { 50 } else { 10 };
    for _ in 0..rng.below(most) {
        match rng.below(12) {
            0 | 1 => program.import(rng.pick(&MODULES)),
            2..=5 => program.judged_let(rng),
            6 => program.poison(rng),
            _ => {
                program.judged_expr(rng);
                program.put(";");
            }
        }
    }
    program.text(rng)
}

// Searches among many names

/// How many names: around where a table or a group of them may end
const CROWDS: [usize; 16] = [1, 2, 3, 4, 5, 8, 9, 16, 17, 63, 64, 65, 255, 256, 511, 512];

/// Spellings of name i: short, of one length, alike at first, alike at last, and of many lengths
const SPELLINGS: [fn(usize) -> String; 5] = [
    |i| format!("w{i}"),
    |i| format!("w{i:03x}"),
    |i| format!("same_at_first_{i:03x}"),
    |i| format!("v{i:03x}_same_at_last"),
    |i| {
        format!(
            "{}{}{}",
            "ab".repeat(i % 9),
            ["a", "b", "c_"][i / 9 % 3],
            i / 27
        )
    },
];

/// The value of name i of n, and a statement after all lets: each name is found, in order and in
/// the other; none is; each is found, and failed; each is bound again; each is another's value;
/// both sides of a `/`; one before a `.`
const CROWD_USES: [fn(&dyn Fn(usize) -> String, usize, usize) -> (String, String); 8] = [
    |name, i, _| ("7".into(), format!("{};", name(i))),
    |name, i, n| ("7".into(), format!("{};", name(n - 1 - i))),
    |name, i, n| ("7".into(), format!("{};", name(n + i))),
    |name, i, n| (name(n), format!("{};", name(i))),
    |name, i, n| ("7".into(), format!("let {}={};", name(i), name(n - 1 - i))),
    |name, i, n| (name((i + n - 1) % n), format!("{};", name(i))),
    |name, i, n| {
        (
            "1.2.3.4".into(),
            format!("{}/{};", name(i), name(n - 1 - i)),
        )
    },
    |name, i, n| {
        (
            ["7", "q"][i % 2].into(),
            format!("{}.m/{};", name(i), name(n - 1 - i)),
        )
    },
];

/// So many lets, then the uses. Imports of the same names stand before, if they are wanted
fn crowd(n: usize, spelling: usize, uses: usize, imported: bool) -> Vec<u8> {
    let name = SPELLINGS[spelling];
    let all = (0..n).map(|i| CROWD_USES[uses](&name, i, n));
    let imports = if imported { n.min(64) } else { 0 };
    let mut text: String = (0..imports)
        .map(|i| format!("import {};", name(i)))
        .collect();
    let mut after = String::new();
    for (i, (value, used)) in all.enumerate() {
        text += &format!("let {}={value};", name(i));
        after += &used;
    }
    (text + &after).into_bytes()
}

/// Any of these, in any order: a use may stand before its let, and what is bound may fail
fn scattered(rng: &mut Rng) -> Vec<u8> {
    let name = SPELLINGS[rng.below(SPELLINGS.len())];
    let most = [4, 20, 80, 300][rng.below(4)];
    let n = 1 + rng.below(most);
    let mut text = String::from(rng.pick(&["", "import bench;", "import nope;"]));
    let mut bound = 0;
    while bound < n {
        let fresh = name(bound);
        // about those bound so far, a few later ones too
        let mut any = || name(rng.below(bound + 2));
        let (a, b, c) = (any(), any(), any());
        let turn = rng.below(12);
        text += &match turn {
            0 => format!("{a};"),
            1 => format!("{a}/{b}/{c};"),
            2 => format!("{a}.{b}/{c};"),
            3 => format!("let {a}={b}/{c};"),
            4 => format!("import {a};{a}::{b};"),
            5 => format!("bench::LOOP/{a};nope::x/{b};"),
            6 => format!("let {fresh}={a}/{b};"),
            7 => format!("let {fresh}={a};"),
            8 => format!("let {fresh}={fresh};"),
            9 => format!("let {fresh}=1.2.3.4;"),
            10 => format!("let {fresh}=bench::LOOP;"),
            _ => format!("let {fresh}=7;"),
        };
        bound += usize::from(turn > 5);
    }
    text.into_bytes()
}

fn names(rng: &mut Rng, i: u64) -> Vec<u8> {
    let shapes = CROWDS.len() * CROWD_USES.len();
    match i as usize {
        i if i < shapes => {
            let (size, uses) = (i / CROWD_USES.len(), i % CROWD_USES.len());
            crowd(CROWDS[size], i % SPELLINGS.len(), uses, i % 3 == 0)
        }
        _ if rng.once_in(3) => {
            let n = 1 + rng.below(512);
            let spelling = rng.below(SPELLINGS.len());
            let uses = rng.below(CROWD_USES.len());
            crowd(n, spelling, uses, rng.once_in(2))
        }
        _ => scattered(rng),
    }
}

// Calls by what is called and what is given

/// Bound before each source: values known before the run and not, of each type
#[rustfmt::skip]
const BOUND: &str = "import bench;let n=7;let big=70000;let huge=170141183460469231731687303715884105727;let s=\"t\";\
    let f=bench::ping;let c=bench::pick;let u=bench::pick(9);let h=bench::host(1);let k=h/u;let p=bench::ping(h);\
    let g=bench::burst(k,p);let j=bench::pause(u);let a=u;";

/// What an argument, a callee or an operand can come to, and what errs in one of them
#[rustfmt::skip]
const GIVEN: [&str; 52] = [
    "0", "255", "256", "65535", "65536", "4294967296", "18446744073709551615", "18446744073709551616", "true", "false",
    "1.2.3.4", "1.2.3.4:80", "\"a\" \"b\"", "bench::HTTP", "bench::LOOP", "bench::BIG", "bench::ON", "bench::BANNER",
    "bench::deep::ZERO", "bench::ping", "bench::mark", "bench::deep", "bench::none", "none::x", "zz", "n", "big", "huge",
    "s", "f", "c", "u", "h", "k", "p", "g", "j", "a", "1.2.3.4/80", "h/u", "h/big", "1.2.3.4/u", "bench::mark(1)",
    "bench::ping(h)", "bench::pick(big)", "bench::host(u)", "bench::pause(0)", "bench::burst(k,s)", "f(h)", "p.m",
    "bench::ping(x:1)", "zz(x:1)",
];

const FUNCTIONS: [(&str, usize); 6] = [
    ("ping", 1),
    ("pause", 1),
    ("burst", 2),
    ("mark", 1),
    ("pick", 1),
    ("host", 1),
];

/// A call, or what stands for one, with calls in its arguments down to some depth
fn nested(rng: &mut Rng, depth: usize) -> String {
    let (name, wants) = FUNCTIONS[rng.below(FUNCTIONS.len())];
    let callee = match rng.below(12) {
        0 => rng.pick(&GIVEN).into(),
        1 => rng.pick(&["f", "c"]).into(),
        _ => format!("bench::{name}"),
    };
    let count = if rng.once_in(6) { rng.below(5) } else { wants };
    let args: Vec<String> = (0..count)
        .map(|_| {
            let name = if rng.once_in(40) { "to: " } else { "" };
            format!("{name}{}", given(rng, depth))
        })
        .collect();
    format!("{callee}({})", args.join(","))
}

fn given(rng: &mut Rng, depth: usize) -> String {
    match rng.below(6) {
        0..=2 if depth > 0 => nested(rng, depth - 1),
        3 if depth > 0 => format!("{}/{}", nested(rng, depth - 1), nested(rng, 0)),
        _ => rng.pick(&GIVEN).into(),
    }
}

/// Each function with each value alone, with each pair, and with 0 to 4 of one; each value as a callee, as an operand and as the value of
/// a let; then calls in calls
fn bindings(rng: &mut Rng, i: u64) -> Vec<u8> {
    let (all, i) = (GIVEN.len(), i as usize);
    let value = |i: usize| GIVEN[i % all];
    let function = |i: usize| FUNCTIONS[i / all % FUNCTIONS.len()].0;
    let alone = all * FUNCTIONS.len();
    let rest = match i {
        _ if i < alone => format!("bench::{}({});", function(i), value(i)),
        _ if i < alone * (all + 1) => {
            let i = i - alone;
            format!("bench::{}({},{});", function(i), value(i / alone), value(i))
        }
        _ if i < alone * (all + 6) => {
            let i = i - alone * (all + 1);
            format!("bench::{}({});", function(i), vec![value(i); i / alone].join(","))
        }
        _ if i < alone * (all + 6) + 5 * all => {
            let (shape, v) = ((i - alone * (all + 6)) / all, value(i - alone * (all + 6)));
            ["let q=~;q;q;", "~(h);", "~/u;", "h/~;", "1.2.3.4/~;"][shape].replace('~', v)
        }
        _ => {
            let statements = (0..1 + rng.below(4)).map(|i| {
                let depth = if rng.once_in(30) { 33 } else { rng.below(5) };
                let bind = if rng.once_in(3) { format!("let w{i}=") } else { String::new() };
                format!("{bind}{};", nested(rng, depth))
            });
            statements.collect()
        }
    };
    format!("{BOUND}{rest}").into_bytes()
}

// Damaged copies

fn damaged(rng: &mut Rng) -> Vec<u8> {
    const BITS: [&str; 24] = [
        "\"",
        "\n",
        "#",
        "/",
        "//",
        ":",
        "::",
        ";",
        ".",
        "(",
        ")",
        ",",
        "=",
        "0",
        "9",
        "x",
        "_",
        "\0",
        "@",
        "\u{e9}",
        "\u{a0}",
        "\u{3000}",
        "\u{1f600}",
        "|",
    ];
    let mut src = match rng.below(4) {
        0 => tokens(rng),
        1 => calls(rng),
        _ => programs(rng),
    };
    for _ in 0..1 + rng.below(3) {
        let at = rng.below(src.len() + 1);
        match rng.below(9) {
            0 if at < src.len() => src[at] ^= 1 << rng.below(8),
            1 if at < src.len() => src[at] = rng.next() as u8,
            2 => src.truncate(at),
            3 => {
                let n = rng.below(4).min(src.len() - at);
                src.drain(at..at + n);
            }
            4 => {
                let n = rng.below(12).min(src.len() - at);
                let copy = src[at..at + n].to_vec();
                let to = rng.below(src.len() + 1);
                src.splice(to..to, copy);
            }
            5 => {
                let other = rng.below(src.len() + 1);
                if at < src.len() && other < src.len() {
                    src.swap(at, other);
                }
            }
            6 => {
                src.drain(..at);
            }
            _ => {
                let bit = rng.pick(&BITS);
                src.splice(at..at, bit.bytes());
            }
        }
    }
    src
}

// Sizes

const MOST: usize = 65_536;

fn fill(piece: &str, len: usize) -> Vec<u8> {
    piece.bytes().cycle().take(len).collect()
}

fn ended(mut src: Vec<u8>, end: &str) -> Vec<u8> {
    src.extend_from_slice(end.as_bytes());
    src
}

fn many(n: usize, piece: impl Fn(usize) -> String) -> Vec<u8> {
    (0..n).map(piece).collect::<String>().into_bytes()
}

fn lets(n: usize) -> Vec<u8> {
    many(n, |i| format!("let v{i} = {i};\n"))
}

fn imports(n: usize) -> Vec<u8> {
    many(n, |i| format!("import m{i};\n"))
}

fn nest(n: usize) -> Vec<u8> {
    format!("{}x{};", "f(".repeat(n), ")".repeat(n)).into_bytes()
}

fn steps(first: &str, step: &str, n: usize) -> Vec<u8> {
    format!("{first}{};", step.repeat(n)).into_bytes()
}

/// In each argument the steps start at 0 again
fn steps_inside(n: usize) -> Vec<u8> {
    let inner = ".m".repeat(n);
    format!("f(x{inner}, x{inner}){};", ".m".repeat(n - 1)).into_bytes()
}

/// Each entry makes one source
const SIZES: &[fn() -> Vec<u8>] = &[
    || Vec::new(),
    || fill("\n", 1),
    || fill(" ", 1),
    || fill("a", 1),
    || fill(";", 1),
    // The bound on a source
    || fill(" ", MOST - 1),
    || fill(" ", MOST),
    || fill(" ", MOST + 1),
    || fill("\n", MOST - 1),
    || fill("\n", MOST),
    || fill("\n", MOST + 1),
    || fill("a", MOST),
    || fill("a", MOST + 1),
    || ended(fill("a", MOST - 1), ";"),
    || fill("# ", MOST),
    || fill("1", MOST),
    || fill("0", MOST),
    || ended(ended(b"0x".to_vec(), &"0".repeat(MOST - 4)), "f;"),
    || fill("@", MOST),
    || fill("\u{3000}", MOST),
    || fill("\u{3000}", MOST - 1),
    || ended(fill(" ", MOST - 2), "\u{e9}"),
    || ended(fill(" ", MOST - 1), "\u{e9}"),
    || [fill(" ", MOST - 1), vec![0xff]].concat(),
    || [fill(" ", MOST), vec![0xff]].concat(),
    || ended(fill("\n", MOST - 1), "@"),
    || ended(ended(b"\"".to_vec(), &"b".repeat(MOST - 3)), "\";"),
    || ended(b"\"".to_vec(), &"b".repeat(MOST - 1)),
    || fill("\"\"", MOST),
    || ended(fill("\"a\"\n", MOST - 4), "x;\n\n"),
    || fill("x;", MOST),
    || fill("x;", MOST + 1),
    || fill("1;\n", MOST - 1),
    || fill(";", MOST),
    || fill("(", MOST),
    // Deep and long sentences
    || fill("f(", MOST),
    || ended(fill("a/", MOST - 2), "a;"),
    || ended(fill("a.", MOST - 2), "a;"),
    || ended(fill("a::", MOST - 4), "a;"),
    || nest(31),
    || nest(32),
    || nest(33),
    || ended(nest(32), "f();"),
    // A bound and a wrong token, one before the other
    || ended(fill("f(", 66), ",);"),
    || ended(fill("f(", 64), ",);"),
    || ended(fill("f(", 64), ",f("),
    || ended(b";".to_vec(), &"f(".repeat(33)),
    || ended(steps("x", ".m", 64), "x.1;"),
    || format!("x{}.1;", ".m".repeat(64)).into_bytes(),
    || format!("x{}.1;", ".m".repeat(63)).into_bytes(),
    || format!("x{} 1;", ".m".repeat(65)).into_bytes(),
    || format!("{}f(){};", "f(".repeat(31), ".m".repeat(64)).into_bytes(),
    || format!("{}f(){}", "f(".repeat(32), ")".repeat(32)).into_bytes(),
    || format!("f(a: x{}){};", "/1".repeat(65), ".m".repeat(63)).into_bytes(),
    || format!("x{}/1.2.3.4:80/1;", ".m".repeat(63)).into_bytes(),
    || format!("f({}).m;", "x.m,".repeat(70)).into_bytes(),
    || steps("x", ".m", 63),
    || steps("x", ".m", 64),
    || steps("x", ".m", 65),
    || steps("1.2.3.4", "/1", 64),
    || steps("1.2.3.4", "/1", 65),
    || steps("f", "()", 64),
    || steps("f", "()", 65),
    || steps("f", "/a.b()", 21),
    || steps("f", "/a.b()", 22),
    || steps_inside(64),
    || steps_inside(65),
    || ended(steps("x", ".m", 64), "y.m;"),
    // Names
    || lets(511),
    || lets(512),
    || lets(513),
    || ended(lets(512), "let v0 = 1;\nlet v511 = 2;"),
    || ended(lets(512), "let w = w;"),
    || many(513, |i| format!("let v{i} = q;\n")),
    || ended(lets(512), "v511;v0;"),
    || imports(63),
    || imports(64),
    || imports(65),
    || ended(imports(64), "import m0;import m63;"),
    || ended(imports(63), "import bench;bench::HTTP;"),
    || ended(imports(64), "import bench;bench::HTTP;"),
    || [lets(513), imports(65)].concat(),
    || [imports(65), lets(513)].concat(),
    // The rooms of the check program
    || many(511, |i| format!("{i};")),
    || many(512, |i| format!("{i};")),
    || many(513, |i| format!("{i};")),
    || many(127, |_| "q;".into()),
    || many(128, |_| "q;".into()),
    || many(129, |_| "q;".into()),
    || many(1023, |_| "q;".into()),
    || many(1024, |_| "q;".into()),
    || many(1025, |_| "q;".into()),
    || ended(many(1023, |_| "q;".into()), "q"),
    || ended(many(1022, |_| "q;".into()), "import a;"),
    || ended(many(1021, |_| "q;".into()), "import a;import a;"),
    || ended(many(1024, |_| "q;".into()), "import a;"),
    || ended(steps("f", "(a,a,a,a,a,a,a,a,a,a,a,a,a,a,a,a)", 60), "x;"),
    || format!("f({}a);", "a,".repeat(1021)).into_bytes(),
    || format!("f({}a);", "a,".repeat(1020)).into_bytes(),
    || format!("a{};", "::a".repeat(1022)).into_bytes(),
    || format!("a{};", "::a".repeat(1023)).into_bytes(),
    // Long lines with something at the end
    || ended(fill(" ", 60_000), "@"),
    || ended(fill("x;", 60_000), "x"),
    || ended(fill("x;\n", 60_000), "\u{e9}"),
    || ended(fill("// \u{e9}\n", 60_000), "x;"),
    || ended(fill("# c", 60_000), "\nx;\n\"u"),
];

// Blanks

/// Characters next to a blank, and others that look like one
fn near_blanks() -> Vec<char> {
    let mut out: Vec<char> = Vec::new();
    for blank in BLANKS {
        let n = u32::from(blank);
        out.extend((n.saturating_sub(1)..=n + 1).filter_map(char::from_u32));
    }
    out.extend([
        '\0',
        '\u{1c}',
        '\u{1d}',
        '\u{1e}',
        '\u{1f}',
        '\u{7f}',
        '\u{180e}',
        '\u{200d}',
        '\u{2060}',
        '\u{fe00}',
        '\u{feff}',
        '\u{fffd}',
        '\u{10ffff}',
        '\u{d7ff}',
        '\u{e000}',
    ]);
    out.sort_unstable();
    out.dedup();
    out
}

/// `~` stands for the character
const BLANK_PLACES: [&str; 20] = [
    "~",
    "~~",
    "~a",
    "a~",
    "a~b",
    "1~2",
    "1~.2.3.4",
    "1.2.3~.4",
    "a~:~:b",
    "/~/",
    "\"~\"",
    "\"a\"~\"b\"",
    "\"a~",
    "#~a\nb",
    "//~\na",
    "let~x~=~1;~x~;",
    "import~bench;~bench::HTTP~;",
    "~\n~a~\n",
    "@~@",
    "0x~1~;",
];

fn blanks(rng: &mut Rng, i: u64) -> Vec<u8> {
    let chars = near_blanks();
    let all = (chars.len() * BLANK_PLACES.len()) as u64;
    if i < all {
        let c = chars[i as usize / BLANK_PLACES.len()];
        let place = BLANK_PLACES[i as usize % BLANK_PLACES.len()];
        return place.replace('~', &c.to_string()).into_bytes();
    }
    let mut out = String::new();
    for _ in 0..1 + rng.below(8) {
        match rng.below(3) {
            0 => out.push_str(&any_token(rng)),
            1 => out.push(BLANKS[rng.below(BLANKS.len())]),
            _ => out.push(chars[rng.below(chars.len())]),
        }
    }
    out.into_bytes()
}

// UTF-8

/// Well-formed characters at each edge of their lengths, and sequences that are not
#[rustfmt::skip]
const SEQUENCES: [&[u8]; 52] = [
    b"\x00", b"\x7f", b"\xc2\x80", b"\xdf\xbf", b"\xe0\xa0\x80", b"\xe0\xbf\xbf", b"\xe1\x80\x80",
    b"\xec\xbf\xbf", b"\xed\x80\x80", b"\xed\x9f\xbf", b"\xee\x80\x80", b"\xef\xbf\xbf",
    b"\xef\xbb\xbf", b"\xf0\x90\x80\x80", b"\xf0\xbf\xbf\xbf", b"\xf1\x80\x80\x80",
    b"\xf3\xbf\xbf\xbf", b"\xf4\x80\x80\x80", b"\xf4\x8f\xbf\xbf", b"\xe2\x80\xa8",
    // A byte that starts no character
    b"\x80", b"\x8f", b"\xbf", b"\xc0", b"\xc1", b"\xf5", b"\xf8", b"\xfe", b"\xff",
    // Too long for its number
    b"\xc0\x80", b"\xc1\xbf", b"\xe0\x80\x80", b"\xe0\x9f\xbf", b"\xf0\x80\x80\x80",
    b"\xf0\x8f\xbf\xbf",
    // Surrogates, and past the last character
    b"\xed\xa0\x80", b"\xed\xbf\xbf", b"\xf4\x90\x80\x80", b"\xf5\x80\x80\x80",
    b"\xf7\xbf\xbf\xbf",
    // Cut short
    b"\xc2", b"\xe2", b"\xe2\x80", b"\xf0", b"\xf0\x9f", b"\xf0\x9f\x98",
    // A wrong byte inside
    b"\xc2A", b"\xe2\x80A", b"\xe2A\x80", b"\xf0\x9f\x98A", b"\xf0\x9fA\x80", b"\xc2\xc2\x80",
];

/// `~` stands for the sequence
const UTF8_PLACES: [&[u8]; 12] = [
    b"~",
    b"~~",
    b"a~",
    b"~a",
    b"a\n~",
    b"a;\n  ~\nb",
    b"\"~\"",
    b"\"~",
    b"#~",
    b"//~\n~",
    b"@\n~",
    b"let x = 1;\n~",
];

fn at_marks(place: &[u8], piece: &[u8]) -> Vec<u8> {
    let mut out = Vec::new();
    for &b in place {
        match b {
            b'~' => out.extend_from_slice(piece),
            b => out.push(b),
        }
    }
    out
}

fn utf8(rng: &mut Rng, i: u64) -> Vec<u8> {
    if i < (SEQUENCES.len() * UTF8_PLACES.len()) as u64 {
        let i = i as usize;
        return at_marks(
            UTF8_PLACES[i % UTF8_PLACES.len()],
            SEQUENCES[i / UTF8_PLACES.len()],
        );
    }
    let mut out = Vec::new();
    for _ in 0..1 + rng.below(10) {
        match rng.below(8) {
            0 => out.extend_from_slice(rng.pick(&SEQUENCES)),
            1 => out.push(rng.next() as u8),
            2 => out.extend_from_slice(any_token(rng).as_bytes()),
            3 => out.push(b'\n'),
            4 => out.extend_from_slice(trivia(rng).as_bytes()),
            _ => {
                let bits = 7 + rng.below(15);
                let n = (rng.next() as u32) & ((1 << bits) - 1);
                if let Some(c) = char::from_u32(n) {
                    out.extend_from_slice(c.encode_utf8(&mut [0; 4]).as_bytes());
                }
            }
        }
    }
    if rng.once_in(4) {
        out.truncate(rng.below(out.len() + 1));
    }
    out
}

// Numbers

fn any_int(rng: &mut Rng) -> String {
    const HUGE: [&str; 8] = [
        "170141183460469231731687303715884105727",
        "170141183460469231731687303715884105728",
        "170141183460469231731687303715884105737",
        "340282366920938463463374607431768211455",
        "340282366920938463463374607431768211456",
        "0x7fffffffffffffffffffffffffffffff",
        "0x80000000000000000000000000000000",
        "0x100000000000000000000000000000000",
    ];
    let n = value(rng);
    match rng.below(10) {
        0 | 1 => rng.pick(&HUGE).into(),
        2 => format!("0{n}"),
        3 => format!("0x{}{n:x}", "0".repeat(rng.below(40))),
        4 => format!("0X{n:x}"),
        5 => format!("{n}{}", rng.below(1000)),
        _ => int(rng, n),
    }
}

fn any_quad(rng: &mut Rng) -> String {
    const PARTS: [&str; 22] = [
        "0", "1", "9", "10", "99", "100", "199", "200", "249", "250", "254", "255", "256", "260",
        "299", "300", "999", "1000", "00", "01", "001", "0255",
    ];
    let n = match rng.below(6) {
        0 => 1 + rng.below(6),
        _ => 4,
    };
    let mostly = !rng.once_in(3);
    let mut out = String::new();
    for i in 0..n {
        if i > 0 {
            out.push('.');
        }
        if mostly && !rng.once_in(6) {
            out.push_str(&byte(rng).to_string());
        } else {
            out.push_str(rng.pick(&PARTS));
        }
    }
    out
}

fn numbers(rng: &mut Rng) -> Vec<u8> {
    const SUFFIXES: [&str; 22] = [
        "z", "_", "x", "g", "a", "f", "F", "_0", "0", "x1", "u8", ".", "..", ".5", ".a", ":", "::",
        ":80", "/", "//", "\u{e9}", "\u{a0}",
    ];
    let mut number = match rng.below(3) {
        0 => any_quad(rng),
        _ => any_int(rng),
    };
    if rng.once_in(3) {
        number.push_str(rng.pick(&SUFFIXES));
    }
    if rng.once_in(12) {
        let at = rng.below(number.len() + 1);
        if number.is_char_boundary(at) {
            number.insert_str(at, rng.pick(&SUFFIXES));
        }
    }
    let other = match rng.below(3) {
        0 => any_quad(rng),
        _ => any_int(rng),
    };
    match rng.below(9) {
        0 | 1 => number,
        2 => format!("{number};"),
        3 => format!("let x = {number};x;1.2.3.4/x;"),
        4 => format!("1.2.3.4/{number};"),
        5 => format!("1.2.3.4:{number};"),
        6 => format!("{number}/{other};"),
        7 => format!("{number}:{other};"),
        _ => format!("{number} {other}"),
    }
    .into_bytes()
}

// Single lines

fn good_lexeme(rng: &mut Rng) -> String {
    match rng.below(8) {
        0 => format!("\"{}\"", body(rng)),
        1 => trivia(rng).replace('\n', " "),
        2 => name(rng),
        3 => quad(rng),
        4 => {
            let n = good_value(rng);
            int(rng, n)
        }
        _ => rng
            .pick(&["(", ")", ".", "::", ":", ";", "=", ",", "/", " "])
            .into(),
    }
}

fn bad_lexeme(rng: &mut Rng) -> String {
    rng.pick(&[
        "@",
        "-",
        "\0",
        "\u{e9}",
        "\u{200b}",
        "\u{feff}",
        "\u{10ffff}",
        "\n",
        "\"",
        "\"abc",
        "\"abc\n",
        "\"\u{e9}\n\"",
        "170141183460469231731687303715884105728",
        "0x80000000000000000000000000000000",
        "00",
        "0123",
        "0x",
        "0xg",
        "1z",
        "1_0",
        "9\u{e9}",
        "256.1.1.1",
        "1.2.3.4abc",
        "01.2.3.4",
        "1.2.3.1000",
        "0x1.2.3.4",
        "# c\n",
        "//\n",
    ])
    .into()
}

fn lines(rng: &mut Rng) -> Vec<u8> {
    let mut out = String::new();
    let before = rng.below(5);
    let errors = rng.below(4);
    for _ in 0..before {
        out.push_str(&good_lexeme(rng));
    }
    for _ in 0..errors {
        out.push_str(&bad_lexeme(rng));
        for _ in 0..rng.below(4) {
            out.push_str(&good_lexeme(rng));
        }
    }
    if rng.once_in(4) {
        out.push('\n');
    }
    out.into_bytes()
}

fn mixed(rng: &mut Rng) -> Vec<u8> {
    let i = rng.next() % 4096;
    match rng.below(16) {
        0..=2 => tokens(rng),
        3..=5 => programs(rng),
        6 | 7 => calls(rng),
        8..=10 => damaged(rng),
        11 => blanks(rng, i),
        12 => utf8(rng, i),
        13 | 14 => numbers(rng),
        _ => lines(rng),
    }
}
