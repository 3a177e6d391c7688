//! The program `hits` when a read of its standard input fails or is
//! interrupted.

use comparison::printed::{front, Comparer};
use comparison::program::{self, print_from, print_of, socket_reset_at_the_end};
use comparison::seeds;
use comparison::texts::{break_bytes, near_a_limit, Text};
use reference::testing::Random;
use std::fs::{self, File, OpenOptions};
use std::io::Write;
use std::os::unix::fs::OpenOptionsExt;
use std::os::unix::net::UnixStream;
use std::path::{Path, PathBuf};
use std::process::Command;
use std::time::{Duration, Instant};
use std::{env, process, thread};

/// The listing's first three lines, and the last one.
const THREE_LINES: &[u8] = b"2 3\n2 5 9\n5 7 9 12\n";
const LAST_LINE: &[u8] = b"1 9\n";

/// The longest wait, with room for a busy machine.
const TIMEOUT: Duration = Duration::from_secs(60);

/// A named pipe in a folder of its own, which goes with it.
struct Fifo {
    folder: PathBuf,
}

impl Fifo {
    fn new() -> Fifo {
        let folder = env::temp_dir().join(format!("quorum-reads-{}", process::id()));
        let fifo = Fifo { folder };
        // One may have stayed behind, of a process with the same number.
        fifo.remove();
        fs::create_dir(&fifo.folder).unwrap();
        let made = Command::new("mkfifo").arg(fifo.path()).status().unwrap();
        assert!(made.success());
        fifo
    }

    fn path(&self) -> PathBuf {
        self.folder.join("fifo")
    }

    fn remove(&self) {
        // A folder that is not there, or stays behind, is no fault of the program.
        let _ = fs::remove_dir_all(&self.folder);
    }
}

impl Drop for Fifo {
    fn drop(&mut self) {
        self.remove();
    }
}

/// A pipe that has no more bytes, and whose writer is still open, fails a read
/// that does not wait (`EAGAIN`).
#[test]
fn a_pipe_on_which_a_read_fails() {
    const O_NONBLOCK: i32 = 0o4000;
    let fifo = Fifo::new();
    let reader = OpenOptions::new()
        .read(true)
        .custom_flags(O_NONBLOCK)
        .open(fifo.path())
        .unwrap();
    let mut writer = OpenOptions::new().write(true).open(fifo.path()).unwrap();
    writer.write_all(THREE_LINES).unwrap();
    let printed = print_from(&program::hits(), reader, |_| ());
    drop(writer);
    assert_eq!(front(&printed), front(b"refuse 12 4\n"));
}

/// The same bytes are a question of two runs if the pipe ends there.
#[test]
fn a_pipe_that_ends() {
    let printed = print_of(&program::hits(), &[THREE_LINES], false);
    let answer = "gap 1 4 2\n\
                  hit 5 3\n\
                  gap 6 8 1\n\
                  hit 9 3\n\
                  gap 10 4294967295 1\n\
                  done 2 5 2 0\n";
    assert_eq!(front(&printed), front(answer.as_bytes()));
}

/// A socket that is reset fails a read (`ECONNRESET`).
#[test]
fn a_socket_that_is_reset() {
    let mut comparer = Comparer::of_hits();
    let input = [THREE_LINES, LAST_LINE].concat();
    for size in 0..=input.len() {
        comparer.compare_pieces("the listing", &[&input[..size]], true);
    }
    comparer.met(&[(12, input.len() + 1, 5)]);
}

/// A good, a broken or a long text, mostly cut off, often after a line.
fn any_input(random: &mut Random) -> Vec<u8> {
    let mut bytes = match random.below(3) {
        0 => near_a_limit(random).bytes(),
        _ => Text::any(random).bytes(),
    };
    if random.one_in(3) {
        break_bytes(random, &mut bytes);
    }
    let ends: Vec<usize> = (0..bytes.len()).filter(|&i| bytes[i] == b'\n').collect();
    match random.below(4) {
        0 => bytes.truncate(random.below(bytes.len() + 1)),
        1 | 2 if !ends.is_empty() => bytes.truncate(random.pick(&ends) + 1),
        _ => (),
    }
    bytes
}

/// Inputs that end, and the same with a read that fails there.
#[test]
fn inputs_cut_off() {
    let (mut failing, mut ending) = (Comparer::of_hits(), Comparer::of_hits());
    for seed in seeds(56, 1_600) {
        let input = any_input(&mut Random(seed));
        let name = format!("seed {seed}");
        failing.compare_pieces(&name, &[&input], true);
        ending.compare_pieces(&name, &[&input], false);
    }
    failing.met(&[(12, 1_600, 60)]);
    ending.met(&[(0, 300, 1), (1, 50, 1), (7, 30, 10), (12, 500, 60)]);
}

/// Waits until a process is in a state, as `/proc` has it.
fn await_state(process: u32, state: &str) -> Result<(), String> {
    let begun = Instant::now();
    loop {
        let stat = fs::read_to_string(format!("/proc/{process}/stat"))
            .map_err(|error| format!("waiting for state {state}: {error}"))?;
        // The state follows the program's name, which is in brackets.
        let now = stat.rsplit(')').next().unwrap_or("");
        if now.trim_start().starts_with(state) {
            return Ok(());
        }
        if begun.elapsed() > TIMEOUT {
            return Err(format!("waited for state {state} in vain: {stat}"));
        }
        thread::sleep(Duration::from_millis(1));
    }
}

fn send(signal: &str, process: u32) {
    let sent = Command::new("kill")
        .args([signal, &process.to_string()])
        .status();
    assert!(sent.unwrap().success());
}

/// Stops a process once it sleeps, which these do only in a read, and has it
/// continue. If the read has a timeout, it then fails as interrupted; the
/// system restarts other reads by itself.
fn interrupt(process: u32) {
    await_state(process, "S").unwrap();
    send("-STOP", process);
    let stopped = await_state(process, "T");
    // It continues whatever happened: the end of a stopped process would be
    // waited for in vain.
    send("-CONT", process);
    stopped.unwrap();
}

/// What a program prints for an input that comes through a socket in pieces,
/// a read being interrupted before each.
fn print_interrupted(
    program: &Path,
    socket: (UnixStream, UnixStream),
    pieces: &[&[u8]],
) -> Vec<u8> {
    let (stdin, mut writer) = socket;
    stdin.set_read_timeout(Some(TIMEOUT)).unwrap();
    print_from(program, stdin, move |process| {
        for piece in pieces {
            interrupt(process);
            writer.write_all(piece).unwrap();
        }
    })
}

/// The steps of `interrupt` do interrupt a read (`EINTR`).
#[test]
fn a_single_read_is_interrupted() {
    let program = Path::new(env!("CARGO_BIN_EXE_one_read"));
    let printed = print_interrupted(program, UnixStream::pair().unwrap(), &[b""]);
    assert_eq!(front(&printed), front(b"Interrupted\n"));
}

/// An interrupted read is tried again, before the first byte, within a line
/// and between lines: the input goes on, and ends or fails as it does.
#[test]
fn interrupted_reads() {
    let pieces: [&[u8]; 4] = [b"2 3\n2 5", b" 9\n", b"5 7 9 12\n", LAST_LINE];
    let input = pieces.concat();
    let ending = UnixStream::pair().unwrap();
    let printed = print_interrupted(&program::hits(), ending, &pieces);
    assert_eq!(front(&printed), front(&reference::hits(&input, false)));
    assert!(printed.ends_with(b"done 2 6 3 0\n"));
    let failing = socket_reset_at_the_end();
    let printed = print_interrupted(&program::hits(), failing, &pieces);
    assert_eq!(front(&printed), front(b"refuse 12 5\n"));
}

/// A folder cannot be read (`EISDIR`), nor a file that is open for writing
/// only (`EBADF`).
#[test]
fn inputs_that_cannot_be_read() {
    let folder = File::open(program::repository()).unwrap();
    let write_only = OpenOptions::new().write(true).open("/dev/null").unwrap();
    for stdin in [folder, write_only] {
        let printed = print_from(&program::hits(), stdin, |_| ());
        assert_eq!(front(&printed), front(b"refuse 12 1\n"));
    }
}
