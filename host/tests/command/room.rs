//! A folder for one test, in which the command is run, and frames to run it on.
use std::fs;
use std::path::{Path, PathBuf};
use std::process::{Command, Output};
use std::sync::atomic::{AtomicU32, Ordering};
use thoweldeck::{remainder, Reception};

/// A folder that is there as long as a test runs.
pub struct Room {
    folder: PathBuf,
}

/// What a run of the command left: its exit status, and what it printed.
#[derive(Debug)]
pub struct Ran {
    pub status: i32,
    pub text: String,
    pub errors: String,
}

static ROOMS: AtomicU32 = AtomicU32::new(0);

impl Room {
    /// A new folder with the samples in it.
    pub fn new() -> Room {
        let name = format!("thoweldeck-{}-{}", std::process::id(), ROOMS.fetch_add(1, Ordering::Relaxed));
        let folder = std::env::temp_dir().join(name);
        fs::create_dir_all(&folder).expect("a folder for the test");
        copy(&Path::new(env!("CARGO_MANIFEST_DIR")).join("samples"), &folder.join("samples"));
        Room { folder }
    }

    /// A folder beside it with the command under its name, for the shell. Where the tests are run by an emulator, so
    /// is the command.
    fn program(&self) -> PathBuf {
        let folder = self.folder.with_extension("bin");
        fs::create_dir_all(&folder).expect("a folder for the command");
        let command = folder.join("thoweldeck");
        if let Ok(runner) = std::env::var("THOWELDECK_RUNNER") {
            let script = format!("#!/bin/sh\nexec {runner} '{}' \"$@\"\n", env!("CARGO_BIN_EXE_thoweldeck"));
            fs::write(&command, script).expect("the command");
            let ran = Command::new("chmod").arg("+x").arg(&command).status();
            assert!(ran.expect("chmod").success());
        } else if !command.exists() {
            let ran = Command::new("ln").args(["-s", env!("CARGO_BIN_EXE_thoweldeck")]).arg(&command).status();
            assert!(ran.expect("ln").success());
        }
        folder
    }

    /// The path of a file in the folder.
    pub fn path(&self, name: &str) -> PathBuf {
        self.folder.join(name)
    }

    /// Runs the command with words.
    pub fn run(&self, words: &[&str]) -> Ran {
        let mut command = match std::env::var_os("THOWELDECK_RUNNER") {
            None => Command::new(env!("CARGO_BIN_EXE_thoweldeck")),
            Some(runner) => {
                let mut command = Command::new(runner);
                command.arg(env!("CARGO_BIN_EXE_thoweldeck"));
                command
            }
        };
        ran(command.args(words).current_dir(&self.folder).output())
    }

    /// Runs a line of the shell, in which `thoweldeck` is the command; errors stand among what is printed.
    pub fn shell(&self, line: &str) -> Ran {
        let path = format!("{}:{}", self.program().display(), std::env::var("PATH").unwrap_or_default());
        let mut command = Command::new("sh");
        let line = format!("exec 2>&1; {line}");
        ran(command.args(["-c", &line]).env("PATH", path).current_dir(&self.folder).output())
    }

    /// Writes a file into the folder.
    pub fn write(&self, name: &str, bytes: &[u8]) {
        fs::write(self.path(name), bytes).expect("a file of the test");
    }

    /// The bytes of a file in the folder, where it is there.
    pub fn read(&self, name: &str) -> Option<Vec<u8>> {
        fs::read(self.path(name)).ok()
    }

    /// The reception in a record of the folder.
    pub fn record(&self, name: &str) -> Reception {
        Reception::load(&self.read(name).expect("a record")).expect("a record")
    }

    /// The names of what stands in the folder, hidden ones too, without the samples.
    pub fn names(&self) -> Vec<String> {
        let entries = fs::read_dir(&self.folder).expect("the folder");
        let mut names: Vec<String> =
            entries.map(|entry| entry.expect("an entry").file_name().to_string_lossy().into_owned()).collect();
        names.retain(|name| name != "samples");
        names.sort();
        names
    }
}

impl Drop for Room {
    fn drop(&mut self) {
        let _ = fs::remove_dir_all(&self.folder);
        let _ = fs::remove_dir_all(self.folder.with_extension("bin"));
    }
}

fn ran(output: std::io::Result<Output>) -> Ran {
    let output = output.expect("the command runs");
    Ran {
        status: output.status.code().expect("it ends by itself"),
        text: String::from_utf8(output.stdout).expect("text"),
        errors: String::from_utf8(output.stderr).expect("text"),
    }
}

fn copy(from: &Path, to: &Path) {
    fs::create_dir_all(to).expect("a folder");
    for entry in fs::read_dir(from).expect("a folder") {
        let entry = entry.expect("an entry");
        if entry.path().is_dir() {
            copy(&entry.path(), &to.join(entry.file_name()));
        } else {
            fs::copy(entry.path(), to.join(entry.file_name())).expect("a copy");
        }
    }
}

/// A frame to QST-1 from UOSAT5-11 with an information.
pub fn framed(protocol: u8, information: &[u8]) -> Vec<u8> {
    let mut frame = b"\xA2\xA6\xA8\x40\x40\x40\x62\xAA\x9E\xA6\x82\xA8\x6A\x77\x03".to_vec();
    frame.push(protocol);
    frame.extend(information);
    frame
}

/// The same with the two check bytes behind it.
pub fn checked(protocol: u8, information: &[u8]) -> Vec<u8> {
    let mut information = information.to_vec();
    let check = remainder(&information);
    information.extend(check.to_be_bytes());
    framed(protocol, &information)
}

/// A frame with a piece of a file.
pub fn piece(number: u32, offset: u32, bytes: &[u8]) -> Vec<u8> {
    let mut information = vec![0x02];
    information.extend(number.to_le_bytes());
    information.push(0);
    information.extend(&offset.to_le_bytes()[..3]);
    information.extend(bytes);
    checked(0xBB, &information)
}
