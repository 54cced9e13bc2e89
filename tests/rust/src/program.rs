//! The programs `ringlist` and `molrings` against the model's text. They are taken
//! from the folder FLAT_BIN_DIR names, or each from the out/ of its crate, where
//! rt builds it.

use std::fs::File;
use std::io::{ErrorKind, Read, Write};
use std::os::unix::io::{AsRawFd, OwnedFd};
use std::os::unix::net::UnixDatagram;
use std::path::{Path, PathBuf};
use std::process::{Child, Command, ExitStatus, Stdio};
use std::thread;
use std::time::{Duration, Instant};

use crate::model::list::Task;
use crate::model::{host, lister, molfile, sheet, Record};

/// A program that reads a molecule from its standard input and prints its rings.
pub struct Program {
    name: &'static str,
    /// What the model reads in an input.
    read: fn(&[u8]) -> Result<Record, u32>,
}

/// The highest number of bytes that `ringlist` reads as a sheet.
pub const MOST_OF_SHEET: usize = 65_529;

/// The number of bytes at the start of its input that `molrings` reads.
pub const MOST_OF_MOLFILE: usize = 262_144;

pub const RINGLIST: Program = Program {
    name: "ringlist",
    read: |input| match input.len() {
        0..=MOST_OF_SHEET => sheet::read(input),
        _ => Err(1),
    },
};

pub const MOLRINGS: Program = Program {
    name: "molrings",
    read: |input| molfile::read(&input[..input.len().min(MOST_OF_MOLFILE)]),
};

impl Program {
    fn path(&self) -> PathBuf {
        let folder = match std::env::var_os("FLAT_BIN_DIR") {
            Some(folder) => PathBuf::from(folder),
            None => PathBuf::from(concat!(env!("CARGO_MANIFEST_DIR"), "/../../crates"))
                .join(self.name)
                .join("out"),
        };
        let path = folder.join(self.name);
        assert!(path.is_file(), "{} is missing", path.display());
        path
    }

    /// What it prints for an input.
    pub fn expected(&self, input: &[u8]) -> Vec<u8> {
        match (self.read)(input) {
            Ok(record) => {
                let listing = lister::list(&record, Task::Rings);
                let trials = record.atoms * (listing.extensions + 1);
                let mut text = host::ring_lines(&listing.sheet);
                text.extend(host::count_line(listing.listed, listing.extensions, trials));
                text
            }
            Err(rule) => host::refusal_line(rule),
        }
    }

    /// What it prints for an input.
    pub fn run(&self, input: &[u8]) -> Vec<u8> {
        let mut child = start(&mut Command::new(self.path()));
        feed(&mut child, vec![input.to_vec()], None);
        let (text, status) = output(child);
        assert!(status.code().is_some(), "{status}");
        text
    }

    /// Compares what it prints for an input.
    pub fn compare(&self, input: &[u8]) {
        let (text, expected) = (self.run(input), self.expected(input));
        if text != expected {
            let shown = |bytes: &[u8]| bytes[..bytes.len().min(400)].escape_ascii().to_string();
            panic!(
                "{} bytes {}\nprinted  {}\nexpected {}",
                input.len(),
                shown(input),
                shown(&text),
                shown(&expected)
            );
        }
    }

    /// Compares, and asserts the text itself.
    pub fn expect(&self, input: &[u8], text: &str) {
        assert_eq!(
            self.run(input).escape_ascii().to_string(),
            text.as_bytes().escape_ascii().to_string()
        );
        self.compare(input);
    }

    /// Compares for an input in pieces of a size, each after a pause if there is
    /// one.
    pub fn compare_in_pieces(&self, input: &[u8], size: usize, pause: Option<Duration>) {
        let mut child = start(&mut Command::new(self.path()));
        let pieces = input.chunks(size).map(<[u8]>::to_vec).collect();
        feed(&mut child, pieces, pause);
        let (text, _) = output(child);
        assert!(text == self.expected(input), "pieces of {size}");
    }

    /// Compares for an input from a file.
    pub fn compare_file(&self, path: &Path) {
        let input = std::fs::read(path).expect("a file");
        let made = Command::new(self.path())
            .stdin(File::open(path).expect("a file"))
            .output()
            .expect("it runs");
        assert!(made.status.success());
        assert!(made.stdout == self.expected(&input));
    }

    /// A shell command with the program as $0.
    fn shell(&self, command: &str) -> Command {
        let mut shell = Command::new("sh");
        shell.arg("-c").arg(command).arg(self.path());
        shell
    }

    /// Compares for an input whose text has many times the memory that the program
    /// may have.
    pub fn bounded_memory(&self, input: &[u8]) {
        let mut child = start(&mut self.shell("ulimit -v 8192 && exec \"$0\""));
        feed(&mut child, vec![input.to_vec()], None);
        let (text, status) = output(child);
        assert!(status.success(), "{status}");
        assert!(text.len() > 20_000_000 && text == self.expected(input));
    }

    /// Nobody reads any more, in the middle of a listing that would take years: it
    /// ends, whether it is told by a signal or by an error. A short text comes
    /// whole.
    pub fn closed_output(&self, endless: &[u8], short: &[u8]) {
        for command in ["exec \"$0\"", "trap '' PIPE; exec \"$0\""] {
            let mut child = start(&mut self.shell(command));
            let mut out = child.stdout.take().expect("piped");
            feed(&mut child, vec![endless.to_vec()], None);
            let mut first = [0; 100];
            out.read_exact(&mut first).expect("a ring");
            drop(out);
            ends(&mut child);
        }
        let mut child = start(&mut self.shell("exec \"$0\" > /dev/full"));
        feed(&mut child, vec![endless.to_vec()], None);
        ends(&mut child);
        // After a write that failed nothing more is printed, not the counts either,
        // which would be taken.
        assert_eq!(self.narrowly(endless).escape_ascii().to_string(), "");
        assert!(self.narrowly(short) == self.expected(short));
    }

    /// What comes of the output through a socket that takes short writes and fails
    /// long ones whole.
    fn narrowly(&self, input: &[u8]) -> Vec<u8> {
        let (near, far) = narrow_sockets();
        let mut child = Command::new(self.path())
            .stdin(Stdio::piped())
            .stdout(OwnedFd::from(far))
            .spawn()
            .expect("the program starts");
        feed(&mut child, vec![input.to_vec()], None);
        ends(&mut child);
        near.set_nonblocking(true).expect("a socket");
        let (mut text, mut piece) = (Vec::new(), vec![0; 65_536]);
        loop {
            match near.recv(&mut piece) {
                Ok(len) => text.extend_from_slice(&piece[..len]),
                Err(error) => {
                    assert_eq!(error.kind(), ErrorKind::WouldBlock);
                    return text;
                }
            }
        }
    }
}

/// Two ends of a socket, of which the second takes short writes alone.
fn narrow_sockets() -> (UnixDatagram, UnixDatagram) {
    extern "C" {
        fn setsockopt(socket: i32, level: i32, name: i32, value: *const i32, len: u32) -> i32;
    }
    const SOL_SOCKET: i32 = 1;
    const SO_SNDBUF: i32 = 7;
    let (near, far) = UnixDatagram::pair().expect("a pair of sockets");
    // SAFETY: the socket is open, and the value has the length that is given.
    let set = unsafe { setsockopt(far.as_raw_fd(), SOL_SOCKET, SO_SNDBUF, &4_096, 4) };
    assert_eq!(set, 0);
    let taken = |len: usize| far.send(&vec![b'.'; len]).is_ok();
    assert!(!taken(20_000) && taken(61), "only the short write is taken");
    assert_eq!(near.recv(&mut [0; 100]).ok(), Some(61));
    (near, far)
}

/// Writes in pieces, each after a pause if there is one. The program may end
/// before it has read all.
fn feed(child: &mut Child, pieces: Vec<Vec<u8>>, pause: Option<Duration>) {
    let mut input = child.stdin.take().expect("piped");
    thread::spawn(move || {
        for piece in pieces {
            if input.write_all(&piece).is_err() {
                return;
            }
            if let Some(pause) = pause {
                thread::sleep(pause);
            }
        }
    });
}

fn start(command: &mut Command) -> Child {
    command
        .stdin(Stdio::piped())
        .stdout(Stdio::piped())
        .stderr(Stdio::piped())
        .spawn()
        .expect("the program starts")
}

/// The output for an input, and that nothing else is said.
fn output(mut child: Child) -> (Vec<u8>, ExitStatus) {
    let (mut text, mut errors) = (Vec::new(), Vec::new());
    let mut out = child.stdout.take().expect("piped");
    out.read_to_end(&mut text).expect("readable");
    let mut err = child.stderr.take().expect("piped");
    err.read_to_end(&mut errors).expect("readable");
    assert_eq!(errors.escape_ascii().to_string(), "");
    (text, child.wait().expect("it ends"))
}

/// Waits for the program, but not for ever.
fn ends(child: &mut Child) -> ExitStatus {
    let begin = Instant::now();
    loop {
        if let Some(status) = child.try_wait().expect("a child") {
            return status;
        }
        if begin.elapsed() > Duration::from_secs(20) {
            child.kill().expect("a child");
            panic!("the program does not end");
        }
        thread::sleep(Duration::from_millis(2));
    }
}
