//! The C entries of the library, as Rust calls them, and lent tables for them.

#[repr(C)]
#[derive(Clone, Copy, Debug)]
pub struct Verdict {
    pub number: u64,
    pub kind: u64,
    pub line: u64,
    pub column: u64,
    pub character: u64,
}

/// What a call with one table came to, what one with two, and what check
#[repr(C)]
#[derive(Clone, Copy, Debug)]
pub struct One {
    pub verdict: Verdict,
    pub count: u64,
}

#[repr(C)]
#[derive(Clone, Copy, Debug)]
pub struct Two {
    pub verdict: Verdict,
    pub tokens: u64,
    pub count: u64,
}

#[repr(C)]
#[derive(Clone, Copy, Debug)]
pub struct Checked {
    pub verdict: Verdict,
    pub tokens: u64,
    pub nodes: u64,
    pub errors: u64,
    pub warnings: u64,
    pub statements: u64,
    pub comparisons: u64,
}

#[link(name = "terkinoha", kind = "static")]
unsafe extern "C" {
    fn terkinoha_scan_words(line: *const u8, bytes: usize, lexemes: *mut u64, words: usize) -> One;
    fn terkinoha_lex_words(source: *const u8, bytes: usize, tokens: *mut u64, words: usize) -> One;
    fn terkinoha_parse_words(
        source: *const u8,
        bytes: usize,
        tokens: *mut u64,
        token_words: usize,
        nodes: *mut u64,
        node_words: usize,
    ) -> Two;
    fn terkinoha_canonicalise_words(
        source: *const u8,
        bytes: usize,
        tokens: *mut u64,
        token_words: usize,
        text: *mut u8,
        room: usize,
    ) -> Two;
    fn terkinoha_check_words(
        source: *const u8,
        bytes: usize,
        tokens: *mut u64,
        token_words: usize,
        nodes: *mut u64,
        node_words: usize,
        diagnostics: *mut u64,
        diagnostic_words: usize,
        statements: *mut u64,
        statement_words: usize,
    ) -> Checked;
}

#[link(name = "bench_utf8", kind = "static")]
unsafe extern "C" {
    fn bench_first_bad(source: *const u8, n: usize) -> usize;
}

/// Where the first ill-formed character starts, or the source's size
pub fn first_bad(source: &[u8]) -> usize {
    unsafe { bench_first_bad(source.as_ptr(), source.len()) }
}

pub const LEXEME_WORDS: usize = 6;
pub const TOKEN_WORDS: usize = 7;
pub const NODE_WORDS: usize = 5;
pub const DIAGNOSTIC_WORDS: usize = 12;
pub const STATEMENT_WORDS: usize = 11;

/// The last kind of a row that is a statement's own; those after it are of its parts
pub const LAST_STATEMENT: u64 = 5;

/// The largest source, which no script has more tokens or nodes than, `Eof` aside
pub const MOST: usize = 65_536;

/// Tables to lend: each call gets the first rows of one, as many as it is to see.
pub struct Tables {
    pub lexemes: Vec<u64>,
    pub tokens: Vec<u64>,
    pub nodes: Vec<u64>,
    pub diagnostics: Vec<u64>,
    pub statements: Vec<u64>,
    pub text: Vec<u8>,
}

/// How many rows of each table a call gets, and how many bytes of text
#[derive(Clone, Copy, Debug)]
pub struct Rooms {
    pub lexemes: usize,
    pub tokens: usize,
    pub nodes: usize,
    pub diagnostics: usize,
    pub statements: usize,
    pub text: usize,
}

impl Rooms {
    /// Enough for whatever source of so many bytes. Findings are counted in full however few rows there are.
    pub fn of(bytes: usize) -> Self {
        Self {
            lexemes: bytes,
            tokens: bytes + 1,
            nodes: bytes,
            diagnostics: 128,
            statements: bytes,
            text: MOST,
        }
    }
}

impl Tables {
    pub fn new() -> Self {
        Self {
            lexemes: vec![0; MOST * LEXEME_WORDS],
            tokens: vec![0; (MOST + 1) * TOKEN_WORDS],
            nodes: vec![0; MOST * NODE_WORDS],
            diagnostics: vec![0; MOST * DIAGNOSTIC_WORDS],
            statements: vec![0; MOST * STATEMENT_WORDS],
            text: vec![0; MOST],
        }
    }

    pub fn scan(&mut self, line: &[u8], room: usize) -> One {
        let rows = &mut self.lexemes[..room * LEXEME_WORDS];
        unsafe { terkinoha_scan_words(line.as_ptr(), line.len(), rows.as_mut_ptr(), rows.len()) }
    }

    pub fn lex(&mut self, source: &[u8], rooms: Rooms) -> One {
        let rows = &mut self.tokens[..rooms.tokens * TOKEN_WORDS];
        unsafe { terkinoha_lex_words(source.as_ptr(), source.len(), rows.as_mut_ptr(), rows.len()) }
    }

    pub fn parse(&mut self, source: &[u8], rooms: Rooms) -> Two {
        let rows = &mut self.tokens[..rooms.tokens * TOKEN_WORDS];
        let nodes = &mut self.nodes[..rooms.nodes * NODE_WORDS];
        unsafe {
            terkinoha_parse_words(
                source.as_ptr(),
                source.len(),
                rows.as_mut_ptr(),
                rows.len(),
                nodes.as_mut_ptr(),
                nodes.len(),
            )
        }
    }

    pub fn canonicalise(&mut self, source: &[u8], rooms: Rooms) -> Two {
        let rows = &mut self.tokens[..rooms.tokens * TOKEN_WORDS];
        let text = &mut self.text[..rooms.text];
        unsafe {
            terkinoha_canonicalise_words(
                source.as_ptr(),
                source.len(),
                rows.as_mut_ptr(),
                rows.len(),
                text.as_mut_ptr(),
                text.len(),
            )
        }
    }

    pub fn check(&mut self, source: &[u8], rooms: Rooms) -> Checked {
        let rows = &mut self.tokens[..rooms.tokens * TOKEN_WORDS];
        let nodes = &mut self.nodes[..rooms.nodes * NODE_WORDS];
        let found = &mut self.diagnostics[..rooms.diagnostics * DIAGNOSTIC_WORDS];
        let held = &mut self.statements[..rooms.statements * STATEMENT_WORDS];
        unsafe {
            terkinoha_check_words(
                source.as_ptr(),
                source.len(),
                rows.as_mut_ptr(),
                rows.len(),
                nodes.as_mut_ptr(),
                nodes.len(),
                found.as_mut_ptr(),
                found.len(),
                held.as_mut_ptr(),
                held.len(),
            )
        }
    }
}
