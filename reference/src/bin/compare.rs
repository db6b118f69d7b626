//! Runs another punch program over many inputs and compares it with this one.

use std::env;
use std::error::Error;
use std::ffi::{OsStr, OsString};
use std::io::{self, ErrorKind, Write};
use std::iter;
use std::process::{Command, ExitCode, Stdio};
use std::thread;

use reference::inputs::{all_lines, inputs};

/// How many bytes are shown: enough to repeat all but the few longest inputs.
const INPUT_SHOWN: usize = 30_000;
const OUTPUT_SHOWN: usize = 2_000;

/// What a run leaves behind.
#[derive(PartialEq)]
struct Outcome {
    stdout: Vec<u8>,
    stderr: Vec<u8>,
    /// None when a signal ended the run.
    status: Option<i32>,
}

fn main() -> ExitCode {
    match compare() {
        Ok(true) => ExitCode::SUCCESS,
        Ok(false) => ExitCode::FAILURE,
        Err(error) => {
            eprintln!("compare: {error}");
            ExitCode::from(2)
        }
    }
}

/// Whether the other program does the same on every input.
fn compare() -> Result<bool, Box<dyn Error>> {
    let (program, count) = arguments()?;
    let (mut well_formed, mut damaged) = (0, 0);
    for input in iter::once(all_lines()).chain(inputs(count)) {
        let expected = expected(&input)?;
        let found = run(&program, &input)?;
        if expected != found {
            report(&input, &expected, &found);
            return Ok(false);
        }
        match expected.status {
            Some(0) => well_formed += 1,
            _ => damaged += 1,
        }
    }
    // The input of all lines is named by itself.
    well_formed -= 1;
    println!(
        "compare: all 65536 lines and {} inputs ({well_formed} well-formed, {damaged} damaged), \
         no difference",
        well_formed + damaged
    );
    Ok(true)
}

fn arguments() -> Result<(OsString, usize), Box<dyn Error>> {
    let mut arguments = env::args_os().skip(1);
    let program = arguments.next().ok_or("usage: compare PATH [N]")?;
    let count = match arguments.next() {
        Some(count) => count
            .to_str()
            .and_then(|n| n.parse().ok())
            .ok_or("N is no number")?,
        None => 300,
    };
    Ok((program, count))
}

/// Runs the library in process.
fn expected(input: &[u8]) -> io::Result<Outcome> {
    let (mut stdout, mut stderr) = (Vec::new(), Vec::new());
    let status = reference::punch(input, &mut stdout, &mut stderr)?;
    Ok(Outcome {
        stdout,
        stderr,
        status: Some(status.into()),
    })
}

/// Runs the other program; a thread feeds it, so that neither waits for the other with a full pipe.
fn run(program: &OsStr, input: &[u8]) -> Result<Outcome, Box<dyn Error>> {
    let mut child = Command::new(program)
        .stdin(Stdio::piped())
        .stdout(Stdio::piped())
        .stderr(Stdio::piped())
        .spawn()
        .map_err(|error| format!("cannot run {}: {error}", program.display()))?;
    let mut stdin = child.stdin.take().expect("stdin is piped");
    let (fed, output) = thread::scope(|scope| {
        let feeder = scope.spawn(move || stdin.write_all(input));
        let output = child.wait_with_output();
        (feeder.join().expect("feeding does not panic"), output)
    });
    match fed {
        // A program may end at a bad line without reading the rest.
        Err(error) if error.kind() != ErrorKind::BrokenPipe => return Err(error.into()),
        _ => {}
    }
    let output = output?;
    Ok(Outcome {
        stdout: output.stdout,
        stderr: output.stderr,
        status: output.status.code(),
    })
}

fn report(input: &[u8], expected: &Outcome, found: &Outcome) {
    println!("compare: a difference with the input");
    println!("  {}", shown(input, INPUT_SHOWN));
    report_status(expected.status, found.status);
    report_stream("stdout", &expected.stdout, &found.stdout);
    report_stream("stderr", &expected.stderr, &found.stderr);
}

fn report_status(expected: Option<i32>, found: Option<i32>) {
    let [expected, found] =
        [expected, found].map(|status| status.map_or("a signal".into(), |code| code.to_string()));
    println!("status: expected {expected}, found {found}");
}

/// Shows both streams from the first line that differs, because a listing may be long.
fn report_stream(name: &str, expected: &[u8], found: &[u8]) {
    if expected == found {
        println!("{name}: no difference");
        return;
    }
    let same = iter::zip(expected, found)
        .take_while(|(a, b)| a == b)
        .count();
    let start = expected[..same]
        .iter()
        .rposition(|&byte| byte == b'\n')
        .map_or(0, |at| at + 1);
    println!("{name} from byte {start} on:");
    println!("  expected {}", shown(&expected[start..], OUTPUT_SHOWN));
    println!("  found    {}", shown(&found[start..], OUTPUT_SHOWN));
}

fn shown(bytes: &[u8], limit: usize) -> String {
    let head = &bytes[..bytes.len().min(limit)];
    match bytes.len() - head.len() {
        0 => format!("\"{}\"", head.escape_ascii()),
        more => format!("\"{}\" and {more} bytes more", head.escape_ascii()),
    }
}
