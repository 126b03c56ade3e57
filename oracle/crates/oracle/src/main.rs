//! Prints what resynth answers. See README.md.

mod answer;
mod bounds;
mod canon;
mod generate;
mod selfcheck;
mod text;

use std::io::{self, BufRead, Read, Write};
use std::panic::{AssertUnwindSafe, catch_unwind};
use std::process::ExitCode;

use answer::{Options, Out};

const USAGE: &str =
    "usage: oracle scan|lex|parse|check|grouped|canon|decode [batch] [--raw] [--wide] [--bounds]
       oracle gen KIND SEED COUNT
       oracle samples FILE
       oracle self SEED COUNT
       oracle hex | oracle unhex";

/// Deep trees are read, judged and dropped by recursion
const STACK: usize = 512 << 20;

pub type Mode = fn(&mut Out, &[u8], Options);

pub fn mode(name: &str) -> Option<Mode> {
    Some(match name {
        "scan" => answer::scan,
        "lex" => answer::lex,
        "parse" => answer::parse,
        "check" => answer::check,
        "grouped" => answer::grouped,
        "canon" => answer::canon,
        "decode" => |out, src, _| answer::decode(out, src),
        _ => return None,
    })
}

/// The answer to one source. If resynth panics, the answer is `panic`.
pub fn answer(out: &mut Out, mode: Mode, src: &[u8], opts: Options) {
    let start = out.len();
    let done = catch_unwind(AssertUnwindSafe(|| mode(out, src, opts)));
    if done.is_err() {
        out.truncate(start);
        out.extend_from_slice(b"panic\n");
    }
}

fn batch(mode: Mode, opts: Options) -> io::Result<ExitCode> {
    let mut input = io::stdin().lock();
    let mut output = io::stdout().lock();
    let mut out = Vec::new();
    let mut line = Vec::new();
    let mut src = Vec::new();
    let mut count = 0u64;
    loop {
        line.clear();
        if input.read_until(b'\n', &mut line)? == 0 {
            break;
        }
        count += 1;
        if line.last() == Some(&b'\n') {
            line.pop();
        }
        if !text::unhex(&line, &mut src) {
            output.write_all(&out)?;
            output.flush()?;
            eprintln!("line {count} is not hex");
            return Ok(ExitCode::from(2));
        }
        answer(&mut out, mode, &src, opts);
        out.extend_from_slice(b"--\n");
        if out.len() >= 1 << 16 {
            output.write_all(&out)?;
            out.clear();
        }
    }
    output.write_all(&out)?;
    output.flush()?;
    Ok(ExitCode::SUCCESS)
}

/// All of it, or an error: what is left in the buffer at the program's end would be lost without a word
fn print(bytes: &[u8]) -> io::Result<()> {
    let mut output = io::stdout().lock();
    output.write_all(bytes)?;
    output.flush()
}

fn single(mode: Mode, opts: Options) -> io::Result<ExitCode> {
    let mut src = Vec::new();
    io::stdin().lock().read_to_end(&mut src)?;
    let mut out = Vec::new();
    answer(&mut out, mode, &src, opts);
    print(&out)?;
    Ok(ExitCode::SUCCESS)
}

fn run(args: &[String]) -> io::Result<ExitCode> {
    let words: Vec<&str> = args.iter().map(String::as_str).collect();
    match words[..] {
        ["gen", kind, seed, count] => {
            let (Ok(seed), Ok(count)) = (seed.parse(), count.parse()) else {
                eprintln!("{USAGE}");
                return Ok(ExitCode::from(2));
            };
            let mut output = io::BufWriter::with_capacity(1 << 16, io::stdout().lock());
            let mut line = Vec::new();
            let known = generate::generate(kind, seed, count, &mut |src| {
                line.clear();
                text::hex(&mut line, src);
                line.push(b'\n');
                output.write_all(&line)
            })?;
            output.flush()?;
            if !known {
                eprintln!(
                    "no such kind: {kind}; the kinds are {}",
                    generate::KINDS.join(" ")
                );
                return Ok(ExitCode::from(2));
            }
            Ok(ExitCode::SUCCESS)
        }
        ["samples", file] => Ok(selfcheck::samples(&std::fs::read_to_string(file)?)),
        ["self", seed, count] => {
            let (Ok(seed), Ok(count)) = (seed.parse(), count.parse()) else {
                eprintln!("{USAGE}");
                return Ok(ExitCode::from(2));
            };
            Ok(selfcheck::selfcheck(seed, count))
        }
        ["hex"] => {
            let mut src = Vec::new();
            io::stdin().lock().read_to_end(&mut src)?;
            let mut line = Vec::new();
            text::hex(&mut line, &src);
            line.push(b'\n');
            print(&line)?;
            Ok(ExitCode::SUCCESS)
        }
        ["unhex"] => {
            let mut line = Vec::new();
            io::stdin().lock().read_to_end(&mut line)?;
            if line.last() == Some(&b'\n') {
                line.pop();
            }
            let mut src = Vec::new();
            if !text::unhex(&line, &mut src) {
                eprintln!("not hex");
                return Ok(ExitCode::from(2));
            }
            print(&src)?;
            Ok(ExitCode::SUCCESS)
        }
        [name, ref rest @ ..] => {
            let mut opts = Options::default();
            let mut many = false;
            for (i, word) in rest.iter().enumerate() {
                match *word {
                    "batch" if i == 0 => many = true,
                    "--raw" => opts.raw = true,
                    "--wide" => opts.wide = true,
                    "--bounds" => opts.bounds = true,
                    _ => {
                        eprintln!("{USAGE}");
                        return Ok(ExitCode::from(2));
                    }
                }
            }
            match mode(name) {
                Some(mode) if many => batch(mode, opts),
                Some(mode) => single(mode, opts),
                None => {
                    eprintln!("{USAGE}");
                    Ok(ExitCode::from(2))
                }
            }
        }
        [] => {
            eprintln!("{USAGE}");
            Ok(ExitCode::from(2))
        }
    }
}

unsafe extern "C" {
    fn fcntl(fd: i32, command: i32, ...) -> i32;
}

/// Rust opens /dev/null in the place of a standard stream that is closed, before `main`: reading it would pass for an empty
/// source, and writing it for an answer that was given. This runs before that.
extern "C" fn refuse_closed_streams() {
    const F_GETFD: i32 = 1;
    for (fd, name) in [(0, "input"), (1, "output")] {
        // Safety: it only asks whether the descriptor is open
        if unsafe { fcntl(fd, F_GETFD) } < 0 {
            eprintln!("standard {name}: {}", io::Error::last_os_error());
            std::process::exit(2);
        }
    }
}

#[used]
#[unsafe(link_section = ".init_array")]
static BEFORE_MAIN: extern "C" fn() = refuse_closed_streams;

fn main() -> ExitCode {
    let args: Vec<String> = std::env::args().skip(1).collect();
    std::thread::Builder::new()
        .stack_size(STACK)
        .spawn(move || match run(&args) {
            Ok(code) => code,
            Err(err) if err.kind() == io::ErrorKind::BrokenPipe => ExitCode::SUCCESS,
            Err(err) => {
                eprintln!("{err}");
                ExitCode::from(2)
            }
        })
        .expect("a thread")
        .join()
        .unwrap_or(ExitCode::from(2))
}
