//! Feeds the program `functions` odd and real inputs: what it prints must be the second reader's
//! listing. Where it can't read or write, it must say so on standard error.

use crate::ffi::section::{FOUND, NONE};
use crate::model::{self, Section};
use crate::random::Random;
use crate::sections::{corpus, damage, small};
use crate::tally::{Report, Tally};
use crate::worst;
use std::io::{BufRead, BufReader, Error, Read, Result, Write};
use std::os::fd::OwnedFd;
use std::os::unix::net::UnixStream;
use std::process::{Child, Command, Stdio};

/// The program takes no more bytes.
pub const LIMIT: usize = 65_536;

/// What a shell is told to put in the place of standard input or output, and the one line that
/// must stand on standard error.
const FAILING: [(&str, &str); 4] = [
    ("</", "standard input: Is a directory"),
    ("<&-", "standard input: Bad file descriptor"),
    (">/dev/full", "standard output: No space left on device"),
    (">&-", "standard output: Bad file descriptor"),
];

/// What stood on standard output and on standard error.
#[derive(PartialEq, Debug)]
struct Printed {
    output: String,
    error: String,
}

pub fn compare(command: &[&str], report: &mut Report) -> Result<()> {
    listings(command, report)?;
    failures(command, report)
}

fn listings(command: &[&str], report: &mut Report) -> Result<()> {
    let mut tally = Tally::new("program, listings of odd and real input");
    for (name, input) in inputs()? {
        let expected = Printed {
            output: listing(&input),
            error: String::new(),
        };
        tally.check(|| name.clone(), run(command, &input)?, expected);
    }
    report.add(tally);
    Ok(())
}

/// Section S, where a read or a write fails; nothing is on standard output then.
fn failures(command: &[&str], report: &mut Report) -> Result<()> {
    let mut tally = Tally::new("program, reads and writes that fail");
    for (redirection, message) in FAILING {
        let script = format!("exec \"$@\" {redirection}");
        let shell = [&["sh", "-c", &script, "sh"], command].concat();
        let expected = Printed {
            output: String::new(),
            error: format!("{message}\n"),
        };
        let name = || format!("functions {redirection}");
        tally.check(name, run(&shell, &small::s())?, expected);
    }
    let (printed, expected) = broken_off(command)?;
    tally.check(
        || "a write that fails for a while".into(),
        printed,
        expected,
    );
    report.add(tally);
    Ok(())
}

/// The longest listing, to an output that takes no more until the message is there. What stands on
/// it must be the listing's front, with nothing after the write that failed.
fn broken_off(command: &[&str]) -> Result<(Printed, Printed)> {
    let (reader, output) = UnixStream::pair()?;
    output.set_nonblocking(true)?;
    let input = worst::section();
    let mut child = start(command, &input, OwnedFd::from(output).into())?;
    let mut said = BufReader::new(child.stderr.take().expect("it is piped"));
    let (mut front, mut error) = (Vec::new(), String::new());
    said.read_line(&mut error)?;
    // More than an output holds; a program that goes on writing is left there.
    reader.take(1 << 22).read_to_end(&mut front)?;
    said.read_to_string(&mut error)?;
    child.wait()?;
    let expected = Printed {
        output: up_to(front.len(), &input),
        error: "standard output: Resource temporarily unavailable\n".into(),
    };
    let output = String::from_utf8_lossy(&front).into_owned();
    Ok((Printed { output, error }, expected))
}

/// So many bytes of the listing, and at least one, so that nothing is not enough.
fn up_to(length: usize, input: &[u8]) -> String {
    let mut lines = listing_of(input, length.max(1));
    lines.truncate(length.max(1));
    lines
}

fn inputs() -> Result<Vec<(String, Vec<u8>)>> {
    let mut random = Random::new(90);
    let mut inputs = Vec::new();
    for section in small::prefixes() {
        inputs.push((format!("S cut at {}", section.len()), section));
    }
    for length in [0, 1, 27, 28, LIMIT - 1, LIMIT, LIMIT + 1, 2 * LIMIT] {
        inputs.push((format!("{length} zeros"), vec![0; length]));
        inputs.push((format!("{length} bytes 255"), vec![255; length]));
        let mut headed = vec![0; length];
        headed.iter_mut().take(1).for_each(|byte| *byte = 1);
        inputs.push((format!("a 1 and zeros, {length} bytes"), headed));
    }
    for number in 0..100 {
        inputs.push((format!("noise {number}"), damage::noise(&mut random)));
    }
    for real in corpus::sections()? {
        for version in [0, 2, u32::MAX] {
            let changed = damage::version(&real.bytes, version);
            inputs.push((format!("{}, version {version}", real.name), changed));
        }
        for number in 0..10 {
            let changed = changed(&mut random, &real.bytes);
            inputs.push((format!("{} changed, {number}", real.name), changed));
        }
        inputs.push((real.name, real.bytes));
    }
    Ok(inputs)
}

/// Some bytes are other ones, most of them near the start.
fn changed(random: &mut Random, section: &[u8]) -> Vec<u8> {
    let mut bytes = section.to_vec();
    for _ in 0..=random.below(5) {
        let near = if random.below(4) > 0 {
            200
        } else {
            bytes.len()
        };
        let place = random.below(near.min(bytes.len()) as u32) as usize;
        if let Some(byte) = bytes.get_mut(place) {
            *byte = random.next() as u8;
        }
    }
    if random.below(3) == 0 {
        bytes.truncate(random.below(bytes.len() as u32) as usize);
    }
    bytes
}

fn run(command: &[&str], input: &[u8]) -> Result<Printed> {
    let output = start(command, input, Stdio::piped())?.wait_with_output()?;
    let text = |bytes| String::from_utf8_lossy(bytes).into_owned();
    let mut error = text(&output.stderr);
    if !output.status.success() {
        error += &output.status.to_string();
    }
    Ok(Printed {
        output: text(&output.stdout),
        error,
    })
}

/// Starts the program, and feeds it meanwhile.
fn start(command: &[&str], input: &[u8], output: Stdio) -> Result<Child> {
    let [program, arguments @ ..] = command else {
        return Err(Error::other("no program is named"));
    };
    let mut child = Command::new(program)
        .args(arguments)
        .stdin(Stdio::piped())
        .stdout(output)
        .stderr(Stdio::piped())
        .spawn()?;
    let mut stdin = child.stdin.take();
    let bytes = input.to_vec();
    // A program that reads no more than it takes closes its input early.
    std::thread::spawn(move || stdin.as_mut().map(|stdin| stdin.write_all(&bytes)));
    Ok(child)
}

/// The listing of docs/FORMAT.md, 12, by the second reader.
pub fn listing(input: &[u8]) -> String {
    listing_of(input, usize::MAX)
}

/// Its first lines, of so many bytes or more where there are so many.
fn listing_of(input: &[u8], enough: usize) -> String {
    if input.len() > LIMIT {
        return "refused 30\nend 0\n".to_string();
    }
    let section = match Section::parse(input) {
        Ok(section) => Ok(section),
        Err(refusal) => return format!("refused {refusal}\nend 0\n"),
    };
    let (mut lines, mut cursor, mut functions) = (String::new(), (0, 0), 0);
    while lines.len() < enough {
        let next = model::next(&section, cursor);
        cursor = (next.page, next.index);
        if next.outcome == NONE {
            return lines + &format!("end {functions}\n");
        }
        if next.outcome == FOUND {
            functions += 1;
            let (start, end, opcode) = (next.start, next.end, next.opcode);
            lines += &format!("{start:08x} {end:08x} {opcode:08x}\n");
        } else {
            lines += &format!("refused {}\n", next.refusal);
        }
    }
    lines
}
