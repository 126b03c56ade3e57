// What Rust's standard library says of the sequences of crates/utf8_vectors: the same lines as that program, made with
// `std::str::from_utf8` and `chars`. Its output is recorded as the program's `stdout`:
//
//     rustc -O -o target/utf8_oracle oracle/utf8/main.rs
//     target/utf8_oracle < crates/utf8_vectors/stdin > crates/utf8_vectors/stdout
use std::io::Read;

// The bytes that a line begins with: two hex digits each, one blank between two.
fn unhex(line: &str) -> Vec<u8> {
    let mut out = Vec::new();
    for pair in line.as_bytes().chunks(3) {
        let text = std::str::from_utf8(&pair[..pair.len().min(2)]).unwrap_or("");
        let upper = text.len() == 2 && text.bytes().all(|b| matches!(b, b'0'..=b'9' | b'A'..=b'F'));
        if !upper {
            break;
        }
        out.push(u8::from_str_radix(text, 16).unwrap());
    }
    out
}

fn show_line(bytes: &[u8]) {
    let bad = std::str::from_utf8(bytes).err().map(|e| e.valid_up_to());
    let good = std::str::from_utf8(&bytes[..bad.unwrap_or(bytes.len())]).unwrap();
    let mut words: Vec<String> = good.chars().map(|c| (c as u32).to_string()).collect();
    if let Some(at) = bad {
        words.push(format!("bad {at}"));
    }
    println!("{}", words.join(" "));
}

// Every sequence of `len` bytes of the alphabet, in order.
fn show_digest(alphabet: &[u8], len: usize) {
    let count = alphabet.len().pow(len as u32);
    let mut bytes = vec![0u8; len];
    let mut good = 0;
    let mut digest: u64 = 7;
    for k in 0..count {
        let mut rest = k;
        for b in bytes.iter_mut().rev() {
            *b = alphabet[rest % alphabet.len()];
            rest /= alphabet.len();
        }
        let x = match std::str::from_utf8(&bytes) {
            Ok(_) => 0,
            Err(e) => e.valid_up_to() as u64 + 1,
        };
        if x == 0 {
            good += 1;
        }
        digest = (digest * 31 + x) % 4294967291;
    }
    println!("length {len} count {count} good {good} digest {digest}");
}

fn main() {
    let mut text = String::new();
    std::io::stdin().read_to_string(&mut text).unwrap();
    for line in text.split_terminator('\n') {
        show_line(&unhex(line));
    }
    let every: Vec<u8> = (0..=255).collect();
    for len in 1..=3 {
        show_digest(&every, len);
    }
    let bounds = [
        0x00, 0x7F, 0x80, 0x8F, 0x90, 0x9F, 0xA0, 0xBF, 0xC0, 0xC1, 0xC2, 0xDF, 0xE0, 0xE1, 0xEC, 0xED, 0xEE, 0xEF, 0xF0,
        0xF1, 0xF3, 0xF4, 0xF5, 0xFF,
    ];
    for len in 4..=5 {
        show_digest(&bounds, len);
    }
}
