//! The built programs, run as children.

use std::ffi::OsStr;
use std::fs::File;
use std::io::{ErrorKind, Read, Write};
use std::os::fd::OwnedFd;
use std::os::unix::net::UnixDatagram;
use std::process::{exit, Child, ChildStdin, ChildStdout, Command, Output, Stdio};
use std::sync::mpsc::{channel, Receiver, Sender};
use std::thread;
use std::time::Duration;

pub const SETTLE: &str = concat!(env!("CARGO_MANIFEST_DIR"), "/../target/bin/settle");
pub const CHECK_SHEET: &str = concat!(env!("CARGO_MANIFEST_DIR"), "/../target/bin/check_sheet");
pub const SESSION: &str = concat!(env!("CARGO_MANIFEST_DIR"), "/../target/bin/session");

/// After a piece of an input, so that it is mostly read by itself.
const PAUSE: Duration = Duration::from_micros(200);

/// Longer than any answer takes.
const PATIENCE: Duration = Duration::from_secs(20);

/// What a program does with these bytes on its standard input.
pub fn run(program: &str, arguments: &[&OsStr], input: &[u8]) -> Output {
    run_in_pieces(program, arguments, input, input.len())
}

/// The same with an input that comes in pieces of so many bytes, some time apart.
pub fn run_in_pieces(program: &str, arguments: &[&OsStr], input: &[u8], size: usize) -> Output {
    let mut child = start(program, arguments);
    let mut stdin = child.stdin.take().expect("its standard input");
    let pieces = input.chunks(size.max(1));
    // The program may print more than a pipe holds before it has read all of its input.
    thread::scope(|scope| {
        scope.spawn(move || {
            for piece in pieces {
                give(&mut stdin, piece);
                thread::sleep(PAUSE);
            }
        });
        child.wait_with_output().expect("its end")
    })
}

fn start(program: &str, arguments: &[&OsStr]) -> Child {
    let mut command = Command::new(program);
    command.args(arguments).stdin(Stdio::piped()).stdout(Stdio::piped()).stderr(Stdio::piped());
    command.spawn().unwrap_or_else(|error| {
        eprintln!("{program} does not start: {error}");
        exit(2)
    })
}

/// What a program writes of an output of so many bytes, each write that has bytes by itself; its input is a file.
pub fn writes(program: &str, input: File, length: usize) -> Vec<Vec<u8>> {
    let (output, heard) = UnixDatagram::pair().expect("a socket");
    heard.set_read_timeout(Some(PATIENCE)).expect("a socket that waits");
    let mut command = Command::new(program);
    let mut child = command.stdin(input).stdout(OwnedFd::from(output)).spawn().expect("its start");
    let mut written: Vec<Vec<u8>> = Vec::new();
    let mut bytes = vec![0; 1 << 17];
    while written.iter().map(Vec::len).sum::<usize>() < length {
        let Ok(count) = heard.recv(&mut bytes) else { break };
        written.push(bytes[..count].to_vec());
    }
    child.wait().expect("its end");
    written.retain(|bytes| !bytes.is_empty());
    written
}

/// A program may end before it has taken all of its input.
fn give(input: &mut ChildStdin, bytes: &[u8]) {
    match input.write_all(bytes) {
        Err(error) if error.kind() != ErrorKind::BrokenPipe => panic!("no input: {error}"),
        _ => {}
    }
}

/// A program that is told something, heard, and told more.
pub struct Conversation {
    child: Child,
    input: ChildStdin,
    output: Receiver<Vec<u8>>,
}

impl Conversation {
    pub fn start(program: &str) -> Conversation {
        let mut child = start(program, &[]);
        let input = child.stdin.take().expect("its standard input");
        let stdout = child.stdout.take().expect("its standard output");
        let (sender, output) = channel();
        thread::spawn(move || pass_on(stdout, &sender));
        Conversation { child, input, output }
    }

    pub fn tell(&mut self, bytes: &[u8]) {
        give(&mut self.input, bytes);
        thread::sleep(PAUSE);
    }

    /// So many bytes of its output or more, or what there is when no more comes in time.
    pub fn hear(&self, length: usize) -> Vec<u8> {
        let mut heard = Vec::new();
        while heard.len() < length {
            match self.output.recv_timeout(PATIENCE) {
                Ok(bytes) => heard.extend(bytes),
                Err(_) => break,
            }
        }
        heard
    }

    /// Ends its input; its output has what was not heard before.
    pub fn end(self) -> Output {
        drop(self.input);
        let mut output = self.child.wait_with_output().expect("its end");
        output.stdout = self.output.iter().flatten().collect();
        output
    }
}

fn pass_on(mut output: ChildStdout, to: &Sender<Vec<u8>>) {
    let mut bytes = [0; 4096];
    while let Ok(count @ 1..) = output.read(&mut bytes) {
        if to.send(bytes[..count].to_vec()).is_err() {
            return;
        }
    }
}
