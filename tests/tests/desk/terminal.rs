//! A terminal with the desk at it: a pseudo-terminal, at whose other side a test types
//! and reads.

use super::program;
use std::ffi::{c_char, c_int, CStr};
use std::fs::{File, OpenOptions};
use std::io::{Read, Write};
use std::os::fd::AsRawFd;
use std::os::unix::fs::OpenOptionsExt;
use std::path::PathBuf;
use std::process::{Child, Command, Stdio};
use std::sync::mpsc::{channel, Receiver};
use std::time::Duration;

extern "C" {
    fn grantpt(fd: c_int) -> c_int;
    fn unlockpt(fd: c_int) -> c_int;
    fn ptsname_r(fd: c_int, name: *mut c_char, length: usize) -> c_int;
}

/// Of open: the terminal does not become that of the test.
const O_NOCTTY: c_int = 0o400;

/// Ends the input where a line begins.
pub const CTRL_D: &str = "\x04";

/// The longest that a test waits for the desk.
const PATIENCE: Duration = Duration::from_secs(60);

/// A new terminal: the side at which a test is, and the name of the desk's.
fn open() -> (File, PathBuf) {
    let mut options = OpenOptions::new();
    options.read(true).write(true).custom_flags(O_NOCTTY);
    let here = options.open("/dev/ptmx").expect("a pseudo-terminal");
    let mut name: [c_char; 64] = [0; 64];
    // SAFETY: the descriptor is open, the name is as long as is said and, where
    // ptsname_r answers 0, has its end in it.
    let name = unsafe {
        let fd = here.as_raw_fd();
        assert_eq!((grantpt(fd), unlockpt(fd)), (0, 0));
        assert_eq!(ptsname_r(fd, name.as_mut_ptr(), name.len()), 0);
        CStr::from_ptr(name.as_ptr())
    };
    (here, PathBuf::from(name.to_str().expect("a plain name")))
}

pub struct Terminal {
    keys: File,
    screen: Receiver<Vec<u8>>,
    name: PathBuf,
    seen: String,
    awaited: usize,
}

impl Terminal {
    pub fn new() -> Terminal {
        let (keys, name) = open();
        let mut shown = keys.try_clone().expect("the same terminal");
        let (sender, screen) = channel();
        // Reading fails when the desk has left the terminal.
        std::thread::spawn(move || {
            let mut bytes = [0; 1024];
            while let Ok(count @ 1..) = shown.read(&mut bytes) {
                if sender.send(bytes[..count].to_vec()).is_err() {
                    break;
                }
            }
        });
        let (seen, awaited) = (String::new(), 0);
        Terminal {
            keys,
            screen,
            name,
            seen,
            awaited,
        }
    }

    /// The desk's side, to be one of its streams.
    pub fn stream(&self, read: bool) -> Stdio {
        let mut options = OpenOptions::new();
        options.read(read).write(true).custom_flags(O_NOCTTY);
        options.open(&self.name).expect("the terminal").into()
    }

    /// Starts the desk with every stream at the terminal.
    pub fn start(&self, arguments: &[&str]) -> Child {
        let mut command = Command::new(program());
        let command = command
            .args(arguments)
            .stdin(self.stream(true))
            .stdout(self.stream(true))
            .stderr(self.stream(true));
        command.spawn().expect("the desk starts")
    }

    pub fn keys(&mut self, keys: &str) {
        self.keys.write_all(keys.as_bytes()).expect("keys");
    }

    /// Waits for more to be shown; false where the desk has left.
    fn wait(&mut self) -> bool {
        match self.screen.recv_timeout(PATIENCE) {
            Ok(bytes) => {
                let shown = String::from_utf8(bytes).expect("plain text");
                self.seen += &shown.replace('\r', "");
                true
            }
            Err(std::sync::mpsc::RecvTimeoutError::Disconnected) => false,
            Err(error) => panic!("{error} after\n{}", self.seen),
        }
    }

    /// Waits until the last that is shown is this, and was not waited for before.
    pub fn wait_for(&mut self, end: &str) {
        while !self.seen[self.awaited..].ends_with(end) {
            assert!(self.wait(), "no {end:?} in\n{}", self.seen);
        }
        self.awaited = self.seen.len();
    }

    /// All that was shown, typed lines among it, when the desk has ended.
    pub fn all(mut self) -> String {
        while self.wait() {}
        self.seen
    }
}
