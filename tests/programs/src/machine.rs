//! A folder to run a program in.

use std::fmt::Debug;
use std::fs;
use std::io::Write;
use std::path::{Path, PathBuf};
use std::process::{Command, Stdio};

/// The script that runs a built program on this machine.
const RUN: &str = concat!(env!("CARGO_MANIFEST_DIR"), "/../../run");

pub struct Folder {
    path: PathBuf,
}

impl Folder {
    pub fn new() -> Folder {
        let path = std::env::temp_dir().join(format!("ploverdrift-{}", std::process::id()));
        fs::create_dir_all(&path).expect("a folder can be made");
        Folder { path }
    }

    /// Writes a file of the folder, or removes it.
    pub fn set(&self, name: &str, bytes: Option<&[u8]>) {
        let file = self.path.join(name);
        match bytes {
            Some(bytes) => fs::write(file, bytes).expect("a file can be written"),
            None if file.exists() => fs::remove_file(file).expect("a file can be removed"),
            None => (),
        }
    }

    /// A file of the folder, if it is there.
    pub fn get(&self, name: &str) -> Option<Vec<u8>> {
        fs::read(self.path.join(name)).ok()
    }

    /// What the program writes: to standard output, and to standard error.
    pub fn streams(&self, program: &str, standard_input: &[u8]) -> (Vec<u8>, Vec<u8>) {
        self.streams_with(program, &[], standard_input)
    }

    fn streams_with(
        &self,
        program: &str,
        arguments: &[&str],
        standard_input: &[u8],
    ) -> (Vec<u8>, Vec<u8>) {
        let mut child = Command::new(Path::new(RUN))
            .arg(program)
            .args(arguments)
            .current_dir(&self.path)
            .stdin(Stdio::piped())
            .stdout(Stdio::piped())
            .stderr(Stdio::piped())
            .spawn()
            .expect("./run can be started");
        // A program that has read enough closes its end, so a failed write is no fault here.
        let _ = child.stdin.take().expect("it is piped").write_all(standard_input);
        let ended = child.wait_with_output().expect("the program ends");
        assert!(ended.status.success(), "{program} ended with {}", ended.status);
        (ended.stdout, ended.stderr)
    }

    /// The text that the program prints. It has nothing for standard error.
    pub fn run(&self, program: &str, standard_input: &[u8]) -> String {
        self.run_with(program, &[], standard_input)
    }

    /// The same of a program that is given arguments.
    pub fn run_with(&self, program: &str, arguments: &[&str], standard_input: &[u8]) -> String {
        let (printed, other) = self.streams_with(program, arguments, standard_input);
        assert!(other.is_empty(), "{program} wrote to standard error: {other:?}");
        String::from_utf8(printed).expect("the program prints text")
    }
}

impl Drop for Folder {
    fn drop(&mut self) {
        let _ = fs::remove_dir_all(&self.path);
    }
}

/// Ends with a difference if there is one.
pub fn same<T: Debug + PartialEq + ?Sized>(what: &str, bytes: &[&[u8]], printed: &T, due: &T) {
    if printed != due {
        eprintln!("programs: {what} differs for {bytes:?}\nprinted: {printed:?}\ndue: {due:?}");
        std::process::exit(1);
    }
}
