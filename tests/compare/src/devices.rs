//! Terminals, and pipes with a name, that programs are made to read from.

use std::ffi::{c_char, c_int, c_uint, CStr, CString};
use std::fs::{self, File, OpenOptions};
use std::io;
use std::os::fd::AsRawFd;
use std::os::unix::ffi::OsStrExt;
use std::os::unix::fs::OpenOptionsExt;
use std::path::{Path, PathBuf};
use std::thread;
use std::time::{Duration, Instant};

extern "C" {
    fn grantpt(near: c_int) -> c_int;
    fn unlockpt(near: c_int) -> c_int;
    fn ptsname_r(near: c_int, name: *mut c_char, room: usize) -> c_int;
    fn tcgetattr(far: c_int, settings: *mut Settings) -> c_int;
    fn cfmakeraw(settings: *mut Settings);
    fn tcsetattr(far: c_int, when: c_int, settings: *const Settings) -> c_int;
    fn mkfifo(path: *const c_char, mode: c_uint) -> c_int;
}

/// As much room as C's `struct termios` has, and more.
type Settings = [u64; 16];

/// Both sides of a terminal through which every byte passes as it is.
pub struct Terminal {
    /// What is written here is read at the far side; when it is closed, the
    /// terminal is hung up.
    pub near: File,
    pub far: File,
    /// The name by which the far side can be opened.
    pub name: PathBuf,
}

impl Terminal {
    /// A new terminal.
    pub fn open() -> io::Result<Terminal> {
        // neither side becomes the terminal of this process, and a program that
        // is started gets neither but as its input
        const O_NOCTTY: c_int = 0o400;
        let mut side = OpenOptions::new();
        side.read(true).write(true).custom_flags(O_NOCTTY);
        let near = side.open("/dev/ptmx")?;
        let mut bytes: [c_char; 64] = [0; 64];
        let mut settings: Settings = [0; 16];
        // each call is handed a descriptor that is open, and lists of the length
        // that it may write
        unsafe {
            done(grantpt(near.as_raw_fd()))?;
            done(unlockpt(near.as_raw_fd()))?;
            done(ptsname_r(near.as_raw_fd(), bytes.as_mut_ptr(), bytes.len()))?;
            let name = CStr::from_ptr(bytes.as_ptr()).to_str().expect("a path");
            let far = side.open(name)?;
            done(tcgetattr(far.as_raw_fd(), &mut settings))?;
            cfmakeraw(&mut settings);
            done(tcsetattr(far.as_raw_fd(), 0, &settings))?;
            let name = PathBuf::from(name);
            Ok(Terminal { near, far, name })
        }
    }
}

/// Makes a new pipe of a name, whatever had it before.
pub fn named_pipe(path: &Path) {
    let _ = fs::remove_file(path);
    let text = CString::new(path.as_os_str().as_bytes()).expect("a path");
    // the call reads the text up to its 0
    let made = unsafe { mkfifo(text.as_ptr(), 0o600) };
    assert_eq!(made, 0, "{}", path.display());
}

/// What a call of the C library says: 0 where it has done what it was asked.
fn done(answer: c_int) -> io::Result<()> {
    match answer {
        0 => Ok(()),
        _ => Err(io::Error::last_os_error()),
    }
}

/// Waits until a process waits in a read for so many bytes, of a descriptor where
/// one is said: then it has read what it was handed. Where the system does not
/// say, or the program reads in another way, it is given some time instead.
pub fn wait_for_read(process: u32, descriptor: Option<u32>, room: usize) {
    let reads = format!("{room:#x}");
    let of = descriptor.map(|number| format!("{number:#x}"));
    let begin = Instant::now();
    while begin.elapsed() < Duration::from_secs(5) {
        let Ok(call) = fs::read_to_string(format!("/proc/{process}/syscall")) else {
            return thread::sleep(Duration::from_millis(300));
        };
        let words: Vec<&str> = call.split(' ').collect();
        // the number of the call, the descriptor, where to, how many
        let asked = |of: &String| words[1] == of;
        if words.len() > 3 && words[0] == "0" && of.iter().all(asked) && words[3] == reads {
            return;
        }
        thread::sleep(Duration::from_micros(200));
    }
}
