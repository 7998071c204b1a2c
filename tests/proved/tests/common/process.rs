//! A program of the repository, run as a process. It is crates/NAME/out/NAME, or the file that the environment variable
//! WALNUT_NAME, in capital letters, names.

use reference::generate::Random;
use std::fs::File;
use std::io::{ErrorKind, Write};
use std::path::{Path, PathBuf};
use std::process::{Child, Command, Output, Stdio};
use std::time::{Duration, Instant};

pub fn repository() -> PathBuf {
    Path::new(env!("CARGO_MANIFEST_DIR")).join("../..")
}

/// The files of a folder of examples with the given extension, each with what it holds and the output beside it.
pub fn examples(folder: &str, extension: &str) -> Vec<(PathBuf, Vec<u8>, Vec<u8>)> {
    let folder = repository().join(folder);
    let mut paths: Vec<PathBuf> = folder.read_dir().expect("the folder").map(|entry| entry.expect("an entry").path()).collect();
    paths.retain(|path| path.extension().is_some_and(|found| found == extension));
    let read = |path: &Path| std::fs::read(path).unwrap_or_else(|error| panic!("{}: {error}", path.display()));
    paths.into_iter().map(|path| (path.clone(), read(&path), read(&path.with_extension("out")))).collect()
}

/// A program by its name.
pub struct Program(pub &'static str);

impl Program {
    fn path(&self) -> PathBuf {
        let built = format!("crates/{0}/out/{0}", self.0);
        let named = std::env::var_os(format!("WALNUT_{}", self.0.to_uppercase()));
        named.map_or_else(|| repository().join(built), PathBuf::from)
    }

    fn start(&self, input: Stdio) -> Child {
        let path = self.path();
        let mut command = Command::new(&path);
        command.stdin(input).stdout(Stdio::piped()).stderr(Stdio::piped());
        command.spawn().unwrap_or_else(|error| panic!("{}: {error}; 'rt run' in crates/{} builds it", path.display(), self.0))
    }

    /// What the program prints for an input.
    pub fn run(&self, input: &[u8]) -> Vec<u8> {
        self.run_in_pieces(&[input])
    }

    /// The same where standard input is a file or a folder.
    pub fn run_on_file(&self, path: &Path) -> Vec<u8> {
        let file = self.start(Stdio::from(File::open(path).expect("it can be opened")));
        printed(file.wait_with_output().expect("it ends"), path.display().to_string().as_bytes())
    }

    /// It prints the output beside each of these examples, which come one by one through a pipe and as a file.
    pub fn gives_outputs(&self, examples: &[(PathBuf, Vec<u8>, Vec<u8>)]) {
        for (path, input, expected) in examples {
            let shown = |bytes: &[u8]| String::from_utf8_lossy(bytes).into_owned();
            assert_eq!(shown(&self.run(input)), shown(expected), "{}", path.display());
            assert_eq!(&self.run_on_file(path), expected, "{} as a file", path.display());
        }
    }

    /// The same where the pieces of the input come one after the other.
    fn run_in_pieces(&self, pieces: &[&[u8]]) -> Vec<u8> {
        let mut child = self.start(Stdio::piped());
        for (i, piece) in pieces.iter().enumerate() {
            if i > 0 {
                std::thread::sleep(Duration::from_millis(2));
            }
            give(&mut child, piece);
        }
        printed(child.wait_with_output().expect("it ends"), &pieces.concat())
    }

    /// The same in three pieces, cut anywhere.
    pub fn run_in_three(&self, random: &mut Random, input: &[u8]) -> Vec<u8> {
        let (one, other) = (random.below(input.len() + 1), random.below(input.len() + 1));
        let (front, last) = input.split_at(one.max(other));
        let (first, second) = front.split_at(one.min(other));
        self.run_in_pieces(&[first, second, last])
    }

    /// The program ends also where nobody reads what it prints.
    pub fn ends_unread(&self, input: &[u8]) {
        let mut child = self.start(Stdio::piped());
        drop(child.stdout.take());
        give(&mut child, input);
        drop(child.stdin.take());
        let start = Instant::now();
        while child.try_wait().expect("a process").is_none() {
            if start.elapsed() > Duration::from_secs(10) {
                child.kill().expect("a process");
                panic!("it goes on and on");
            }
            std::thread::sleep(Duration::from_millis(1));
        }
    }
}

/// Writes to the program; it may end before it has read all.
fn give(child: &mut Child, bytes: &[u8]) {
    let pipe = child.stdin.as_mut().expect("a pipe");
    if let Err(error) = pipe.write_all(bytes).and_then(|()| pipe.flush()) {
        assert_eq!(error.kind(), ErrorKind::BrokenPipe);
    }
}

/// What the program printed; it ended normally and said nothing else.
fn printed(output: Output, input: &[u8]) -> Vec<u8> {
    assert!(output.status.success(), "{} for {:?}", output.status, String::from_utf8_lossy(input));
    assert!(output.stderr.is_empty(), "{:?}", String::from_utf8_lossy(&output.stderr));
    output.stdout
}
