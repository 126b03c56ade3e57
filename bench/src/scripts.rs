//! Scripts to measure on. The same kind and size give the same bytes on every machine.

use std::fmt::Write;

/// What stands at the start of scripts with calls
const LIBRARIES: &str = "import ipv4;\nimport dns;\nimport tls;\n\n";

/// These call functions that the constant table does not have, so they are not checked
const WITH_CALLS: [&str; 6] = ["utf8", "scan by line", "scan whole", "lex", "parse", "canonicalise"];

pub const KINDS: [Kind; 9] = [
    Kind { name: "realistic", sizes: &[1, 16, 64], calls: &WITH_CALLS, start: LIBRARIES, block: realistic },
    Kind { name: "comments", sizes: &[16, 64], calls: &WITH_CALLS, start: LIBRARIES, block: comments },
    Kind { name: "strings", sizes: &[16, 64], calls: &WITH_CALLS, start: LIBRARIES, block: strings },
    Kind { name: "numbers", sizes: &[16, 64], calls: &WITH_CALLS, start: LIBRARIES, block: numbers },
    Kind { name: "long names", sizes: &[16, 64], calls: &WITH_CALLS, start: LIBRARIES, block: long_names },
    Kind { name: "accents", sizes: &[16, 64], calls: &WITH_CALLS, start: LIBRARIES, block: accents },
    Kind { name: "no calls", sizes: &[1, 16, 64], calls: &["check"], start: "import bench;\n\n", block: no_calls },
    Kind { name: "calls", sizes: &[1, 16, 64], calls: &["check"], start: "import bench;\n\n", block: calls },
    Kind { name: "500 names", sizes: &[64], calls: &["check"], start: "import bench;\n\n", block: many_names },
];

pub struct Kind {
    pub name: &'static str,
    /// In KB
    pub sizes: &'static [usize],
    /// What is timed on such scripts
    pub calls: &'static [&'static str],
    start: &'static str,
    block: fn(&mut Rng, &mut String),
}

impl Kind {
    /// A script of exactly `size` bytes: imports, then blocks as long as they fit, then a comment that fills the rest
    pub fn script(&self, size: usize) -> Vec<u8> {
        let mut rng = Rng(size as u64);
        let mut out = String::from(self.start);
        loop {
            let before = out.len();
            (self.block)(&mut rng, &mut out);
            if out.len() + 2 > size {
                out.truncate(before);
                break;
            }
        }
        let mut out = out.into_bytes();
        out.push(b'#');
        out.resize(size - 1, b'-');
        out.push(b'\n');
        out
    }
}

/// splitmix64
pub struct Rng(u64);

impl Rng {
    fn next(&mut self) -> u64 {
        self.0 = self.0.wrapping_add(0x9e37_79b9_7f4a_7c15);
        let mut z = self.0;
        z = (z ^ (z >> 30)).wrapping_mul(0xbf58_476d_1ce4_e5b9);
        z = (z ^ (z >> 27)).wrapping_mul(0x94d0_49bb_1331_11eb);
        z ^ (z >> 31)
    }

    fn below(&mut self, n: u64) -> u64 {
        self.next() % n
    }

    fn pick<'a>(&mut self, from: &[&'a str]) -> &'a str {
        from[self.below(from.len() as u64) as usize]
    }
}

macro_rules! put {
    ($out:expr, $($arg:tt)*) => {
        write!($out, $($arg)*).expect("a string takes all")
    };
}

fn quad(rng: &mut Rng) -> String {
    let n = rng.next();
    format!("10.{}.{}.{}", n % 256, (n >> 8) % 256, (n >> 16) % 256)
}

const REMARKS: [&str; 6] = [
    "the client opens, the server answers",
    "retransmission after a pause",
    "should raise exactly one alert",
    "a name that is not in the zone",
    "TODO: also with the window closed",
    "see the second example in the guide",
];

const HEADERS: [&str; 6] = [
    "Host: www.example.com",
    "User-Agent: bench/1.0 (x11; linux)",
    "Accept: text/html,application/xhtml+xml",
    "Content-Type: text/plain; charset=utf-8",
    "Connection: keep-alive",
    "Cache-Control: no-cache, no-store",
];

/// What scripts of packets look like: flows, messages, names asked for, times
fn realistic(rng: &mut Rng, out: &mut String) {
    let id = rng.below(900);
    match rng.below(4) {
        0 => {
            put!(out, "# {}\n", rng.pick(&REMARKS));
            put!(out, "let flow{id} = ipv4::tcp::flow(\n");
            put!(out, "    client: {}:{},\n", quad(rng), 1024 + rng.below(60000));
            put!(out, "    server: {}:80,\n);\n\n", quad(rng));
            put!(out, "flow{id}.open();\nflow{id}.client_message(\n");
            put!(out, "    \"GET /index{id}.html HTTP/1.1|0d 0a|\"\n");
            for _ in 0..1 + rng.below(3) {
                put!(out, "    \"{}|0d 0a|\"\n", rng.pick(&HEADERS));
            }
            put!(out, "    \"|0d 0a|\",\n);\nflow{id}.server_message(\"HTTP/1.1 200 OK|0d 0a 0d 0a|\");\n");
            put!(out, "flow{id}.client_close();\n\n");
        }
        1 => {
            put!(out, "let host{id} = {};\n", quad(rng));
            put!(out, "let port{id} = {};\n", rng.below(65536));
            let ns = 1 + rng.below(250);
            put!(out, "dns::host(host{id}, \"example.com\", ns: 192.168.0.{ns}, ttl: 229, raw: false);");
            put!(out, " // {}\n", rng.pick(&REMARKS));
            put!(out, "host{id}/port{id};\n\n");
        }
        2 => {
            put!(out, "let udp{id} = ipv4::udp::flow({}/{}, {}/53);\n", quad(rng), 1024 + rng.below(60000), quad(rng));
            put!(out, "udp{id}.client_dgram(frag_off: 0x{:x}, csum: true, ", rng.below(65536));
            put!(out, "\"|{:02x} {:02x}|\");\n", rng.below(256), rng.below(256));
            put!(out, "udp{id}.server_dgram(\"ok\");\n\n");
        }
        _ => {
            put!(out, "// {}\n", rng.pick(&REMARKS));
            put!(out, "let hello{id} = tls::message(\n    tls::version::TLS_1_2,\n    tls::content::HANDSHAKE,\n");
            put!(out, "    tls::client_hello(\n        sessionid: tls::len_u8(),\n        ciphers: tls::ciphers(");
            put!(out, "tls::cipher::ECDHE_RSA_WITH_AES_256_CBC_SHA, tls::cipher::EMPTY_RENEGOTIATION_INFO_SCSV");
            put!(out, "),\n    ),\n);\n");
            put!(out, "hello{id};\n\n");
        }
    }
}

/// Nine lines of ten are comments
fn comments(rng: &mut Rng, out: &mut String) {
    for _ in 0..9 {
        put!(out, "{} {}, and {}\n", rng.pick(&["#", "//"]), rng.pick(&REMARKS), rng.pick(&REMARKS));
    }
    put!(out, "let a{} = {}; # {}\n", rng.below(900), rng.below(65536), rng.pick(&REMARKS));
}

/// One call with a long joined string
fn strings(rng: &mut Rng, out: &mut String) {
    put!(out, "flow.client_message(\n");
    for _ in 0..8 {
        put!(out, "    \"{}; {}|0d 0a|\"\n", rng.pick(&HEADERS), rng.pick(&HEADERS));
    }
    put!(out, ");\n");
}

/// Integers of all sizes, hexadecimals and addresses, each on its line
fn numbers(rng: &mut Rng, out: &mut String) {
    put!(out, "table(\n    {},\n    {},\n    {},\n", rng.below(256), rng.below(65536), rng.next());
    put!(out, "    0x{:x},\n    0x{:x},\n    {},\n", rng.below(65536), rng.next(), quad(rng));
    put!(out, "    {}/{},\n    {}:{},\n", quad(rng), rng.below(65536), quad(rng), rng.below(65536));
    put!(out, "    {}{:020}\n);\n", 1 + rng.below(1_000_000), rng.next());
}

/// Names of some forty bytes, and paths of them
fn long_names(rng: &mut Rng, out: &mut String) {
    const LONG: [&str; 5] = [
        "retransmission_timeout_of_the_second_connection",
        "number_of_packets_in_the_outgoing_window",
        "the_server_that_answers_with_a_truncated_record",
        "client_hello_with_every_cipher_suite_offered",
        "CERTIFICATE_REQUEST_WITHOUT_DISTINGUISHED_NAMES",
    ];
    let (a, b, c) = (rng.pick(&LONG), rng.pick(&LONG), rng.pick(&LONG));
    put!(out, "let {a}_{} = {b}::{c}(\n", rng.below(900));
    put!(out, "        {}: {}.{},\n);\n", rng.pick(&LONG), rng.pick(&LONG), rng.pick(&LONG));
}

/// Comments that are not ASCII
fn accents(rng: &mut Rng, out: &mut String) {
    const REMARKS: [&str; 5] = [
        "le client ouvre, le serveur répond après un délai",
        "zweite Übertragung, größer als das Fenster",
        "второй пакет приходит раньше первого",
        "サーバーは切り詰めた応答を返す",
        "η διεύθυνση δεν υπάρχει",
    ];
    put!(out, "# {}\n# {}\n", rng.pick(&REMARKS), rng.pick(&REMARKS));
    put!(out, "let a{} = {}/{}; // {}\n", rng.below(900), quad(rng), rng.below(65536), rng.pick(&REMARKS));
}

// Scripts to check: they have no errors

/// How many groups of three `let`s a script has so far
fn groups(out: &str) -> u64 {
    out.matches("\nlet ").count() as u64 / 3
}

/// A group's name, which is that of its address with its port
fn named(group: u64) -> String {
    const STEMS: [&str; 8] = ["client", "server", "web", "dns", "proxy", "mail", "backup_server", "sensor"];
    format!("{}{group}", STEMS[group as usize % STEMS.len()])
}

/// An address, a port, and both as one
fn group(rng: &mut Rng, out: &mut String) {
    let name = named(groups(out));
    put!(out, "let {name}_host = {};\n", quad(rng));
    match rng.below(4) {
        0 => put!(out, "let {name}_port = bench::HTTP;\n"),
        1 => put!(out, "let {name}_port = 0x{:x};\n", rng.below(65536)),
        _ => put!(out, "let {name}_port = {};\n", rng.below(65536)),
    }
    put!(out, "let {name} = {name}_host/{name}_port;\n");
}

/// What scripts look like where nothing is called: addresses, ports and messages, by name and as they are
fn no_calls(rng: &mut Rng, out: &mut String) {
    let known = groups(out);
    if known == 0 || rng.below(5) < 2 {
        put!(out, "# {}\n", rng.pick(&REMARKS));
        group(rng, out);
        out.push('\n');
        return;
    }
    // mostly one of the last
    let near = if rng.below(4) == 0 { known } else { known.min(8) };
    let name = named(known - 1 - rng.below(near));
    put!(out, "{name}; // {}\n", rng.pick(&REMARKS));
    put!(out, "\"GET /{name}.html HTTP/1.1|0d 0a|\"\n");
    for _ in 0..1 + rng.below(3) {
        put!(out, "    \"{}|0d 0a|\"\n", rng.pick(&HEADERS));
    }
    put!(out, "    \"|0d 0a|\";\n");
    match rng.below(3) {
        0 => put!(out, "bench::LOOP/{name}_port;\n\n"),
        1 => put!(out, "{name}_host/{};\n\n", 1024 + rng.below(60000)),
        _ => put!(out, "{}:{};\n\n", quad(rng), 1024 + rng.below(60000)),
    }
}

/// An address, a port and both as one, some of them known only in the run
fn called_group(rng: &mut Rng, out: &mut String) {
    let name = named(groups(out));
    match rng.below(3) {
        0 => put!(out, "let {name}_host = bench::host({});\n", rng.below(256)),
        _ => put!(out, "let {name}_host = {};\n", quad(rng)),
    }
    match rng.below(3) {
        0 => put!(out, "let {name}_port = bench::HTTP;\n"),
        _ => put!(out, "let {name}_port = {};\n", rng.below(65536)),
    }
    put!(out, "let {name} = {name}_host/{name}_port;\n");
}

/// What scripts mostly are: packets that are sent, with pauses between them
fn calls(rng: &mut Rng, out: &mut String) {
    let known = groups(out);
    if known == 0 || rng.below(5) < 1 {
        put!(out, "# {}\n", rng.pick(&REMARKS));
        called_group(rng, out);
        out.push('\n');
        return;
    }
    let near = if rng.below(4) == 0 { known } else { known.min(8) };
    let name = named(known - 1 - rng.below(near));
    match rng.below(5) {
        0 => put!(out, "bench::ping({name}_host); // {}\n", rng.pick(&REMARKS)),
        1 => put!(out, "bench::ping(bench::host({}));\n", rng.below(256)),
        2 => put!(out, "bench::pause(bench::pick({name}_port));\n"),
        3 => put!(out, "bench::mark({});\n", if rng.below(2) == 0 { "true" } else { "bench::ON" }),
        _ => put!(out, "bench::burst({}/{name}_port, bench::BANNER);\n", quad(rng)),
    }
    put!(out, "bench::burst({name},\n    \"GET /{name}.html HTTP/1.1|0d 0a|\"\n");
    for _ in 0..1 + rng.below(3) {
        put!(out, "    \"{}|0d 0a|\"\n", rng.pick(&HEADERS));
    }
    put!(out, "    \"|0d 0a|\");\nbench::pause({});\n\n", rng.below(100_000));
}

/// Nearly as many names as may be bound, then uses of any of them
fn many_names(rng: &mut Rng, out: &mut String) {
    const GROUPS: u64 = 167;
    if groups(out) < GROUPS {
        return group(rng, out);
    }
    let (a, b) = (named(rng.below(GROUPS)), named(rng.below(GROUPS)));
    put!(out, "{a}; # {}\n{a}_host/{b}_port;\n", rng.pick(&REMARKS));
}
