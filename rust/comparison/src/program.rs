//! The program `hits`, one process for each input.

use std::env;
use std::io::{self, ErrorKind, Write};
use std::os::fd::OwnedFd;
use std::os::unix::net::UnixStream;
use std::path::{Path, PathBuf};
use std::process::{Command, Stdio};
use std::thread;
use std::time::Duration;

/// The repository's top.
pub fn repository() -> &'static Path {
    let top = Path::new(env!("CARGO_MANIFEST_DIR")).ancestors().nth(2);
    top.expect("rust/comparison")
}

/// The program, from `QUORUM_HITS` or else from `target/bin`. A relative path
/// is taken from the repository's top.
///
/// # Panics
///
/// If it is missing.
pub fn hits() -> PathBuf {
    let path = env::var_os("QUORUM_HITS").unwrap_or("target/bin/hits".into());
    let program = repository().join(path);
    assert!(
        program.is_file(),
        "{} is missing: run `make run`, or set QUORUM_HITS",
        program.display()
    );
    program
}

/// Returns what the program prints for an input, handed to it in pieces with
/// a pause after each but the last: through a pipe that then ends or, if
/// `failed`, through a socket on which the next read then fails.
///
/// # Panics
///
/// As [`print_from`], and if the program does not take the input.
pub fn print_of(program: &Path, pieces: &[&[u8]], failed: bool) -> Vec<u8> {
    if failed {
        let (stdin, writer) = socket_reset_at_the_end();
        print_from(program, stdin, |_| write_pieces(writer, pieces))
    } else {
        let (stdin, writer) = io::pipe().expect("a pipe can be made");
        print_from(program, stdin, |_| write_pieces(writer, pieces))
    }
}

/// Returns what the program prints with this standard input. Meanwhile
/// `write` runs, to write what is read there; it is handed the process's
/// number.
///
/// # Panics
///
/// If the program cannot be run, fails, or prints to standard error.
pub fn print_from(
    program: &Path,
    stdin: impl Into<OwnedFd>,
    write: impl FnOnce(u32) + Send,
) -> Vec<u8> {
    let child = Command::new(program)
        .stdin(Stdio::from(stdin.into()))
        .stdout(Stdio::piped())
        .stderr(Stdio::piped())
        .spawn()
        .expect("the program can be run");
    let process = child.id();
    let output = thread::scope(|scope| {
        scope.spawn(move || write(process));
        child.wait_with_output().expect("the program ends")
    });
    assert!(output.status.success(), "{}", output.status);
    let said = String::from_utf8_lossy(&output.stderr);
    assert!(said.is_empty(), "{said}");
    output.stdout
}

/// A standard input and what is to be written to it. Once the writer is
/// dropped, the first read that finds nothing more fails (`ECONNRESET`).
///
/// # Panics
///
/// If no sockets can be made.
pub fn socket_reset_at_the_end() -> (UnixStream, UnixStream) {
    let (mut stdin, writer) = UnixStream::pair().expect("sockets can be made");
    // A socket that is closed with a byte unread resets its peer.
    stdin.write_all(&[0]).expect("there is room for a byte");
    (stdin, writer)
}

/// Writes the pieces with a pause after each but the last.
fn write_pieces(mut writer: impl Write, pieces: &[&[u8]]) {
    for (i, piece) in pieces.iter().enumerate() {
        if i > 0 {
            thread::sleep(Duration::from_millis(2));
        }
        // The program stops reading an input that is too long.
        match writer.write_all(piece).map_err(|error| error.kind()) {
            Err(ErrorKind::BrokenPipe | ErrorKind::ConnectionReset) => return,
            written => written.expect("the program reads"),
        }
    }
}
