//! Sources as text: hex lines, and the escapes of the samples.

pub fn hex(out: &mut Vec<u8>, bytes: &[u8]) {
    const DIGITS: &[u8; 16] = b"0123456789abcdef";
    out.reserve(2 * bytes.len());
    for b in bytes {
        out.push(DIGITS[usize::from(b >> 4)]);
        out.push(DIGITS[usize::from(b & 15)]);
    }
}

fn digit(b: u8) -> Option<u8> {
    char::from(b).to_digit(16).map(|d| d as u8)
}

/// Put the bytes that `line` writes into `src`
pub fn unhex(line: &[u8], src: &mut Vec<u8>) -> bool {
    src.clear();
    if line.len() % 2 != 0 {
        return false;
    }
    for pair in line.chunks_exact(2) {
        let (Some(high), Some(low)) = (digit(pair[0]), digit(pair[1])) else {
            return false;
        };
        src.push(high << 4 | low);
    }
    true
}

/// A source written on one line: `\n`, `\t`, `\r`, `\\`, and `\xHH` for one byte
pub fn unescape(text: &str) -> Option<Vec<u8>> {
    let mut out = Vec::new();
    let mut bytes = text.bytes();
    while let Some(b) = bytes.next() {
        if b != b'\\' {
            out.push(b);
            continue;
        }
        out.push(match bytes.next()? {
            b'n' => b'\n',
            b't' => b'\t',
            b'r' => b'\r',
            b'\\' => b'\\',
            b'x' => digit(bytes.next()?)? << 4 | digit(bytes.next()?)?,
            _ => return None,
        });
    }
    Some(out)
}

pub fn escape(src: &[u8]) -> String {
    let mut out = String::new();
    for &b in src {
        match b {
            b'\n' => out.push_str("\\n"),
            b'\\' => out.push_str("\\\\"),
            b' '..=b'~' => out.push(char::from(b)),
            b => out.push_str(&format!("\\x{b:02x}")),
        }
    }
    out
}
