//! The program that writes, watched: a shim is preloaded into it (shim.c), which logs each step on the files
//! of an edit, and lets the n-th of them fail, tear, wait, or end the program. The program itself knows
//! nothing of it.

use super::*;
use std::hash::{DefaultHasher, Hash, Hasher};

const SOURCE: &str = include_str!("shim.c");

/// The name of the program that alone writes to images.
pub const WRITER: &str = "counter-write";

/// What the operating system says of a disk that is full, of one that fails, and of a quota.
pub const FULL: i32 = 28;
pub const FAILS: i32 = 5;
pub const QUOTA: i32 = 122;

#[derive(Clone, Copy)]
pub struct Shim(&'static Path);

/// What happens at a step.
#[derive(Debug, Clone, Copy, PartialEq, Eq)]
pub enum Do {
    /// It fails with that error, and nothing is done.
    Fail(i32),
    /// Half of it is done, or all of it where it is no write, and it fails.
    Half(i32),
    /// It fails, and all later ones.
    From(i32),
    /// Half of its bytes are done, and it says so.
    Short,
    /// The program ends before it.
    Kill,
    /// The program ends in the midst of it, where it is a write.
    Torn,
    /// The counter that started the program ends before it.
    Parent,
    /// Both end.
    Both,
}

/// Which step: the n-th, from 1 on, of these kinds and on these files (shim.c); all, where there is none.
#[derive(Debug, Clone, Copy)]
pub struct At {
    pub kinds: &'static str,
    pub files: &'static str,
    pub n: usize,
}

/// The n-th step that changes a file or syncs it.
pub fn any(n: usize) -> At {
    At { kinds: "wsfcrut", files: "", n }
}

/// The n-th write to the image.
pub fn image_write(n: usize) -> At {
    At { kinds: "w", files: "i", n }
}

impl Shim {
    /// Built once; none, said aloud, where there is no C compiler.
    pub fn get() -> Option<Shim> {
        static BUILT: OnceLock<Option<PathBuf>> = OnceLock::new();
        BUILT.get_or_init(build).as_deref().map(Shim)
    }

    /// Preloads it.
    pub fn watch(self, command: &mut Command) {
        command.env("LD_PRELOAD", self.0).env("SHIM_IN", WRITER);
    }

    /// Has all steps logged to a file, or to a pipe that is read.
    pub fn log(self, command: &mut Command, log: &Path) {
        self.watch(command);
        command.env("SHIM_LOG", log);
    }

    pub fn at(self, command: &mut Command, at: At, what: Do) {
        self.watch(command);
        command.env("SHIM_KINDS", at.kinds).env("SHIM_FILES", at.files);
        command.env("SHIM_AT", at.n.to_string());
        command.env(
            "SHIM_DO",
            match what {
                Do::Fail(error) => format!("fail {error}"),
                Do::Half(error) => format!("half {error}"),
                Do::From(error) => format!("from {error}"),
                Do::Short => "short".into(),
                Do::Kill => "kill".into(),
                Do::Torn => "torn".into(),
                Do::Parent => "parent".into(),
                Do::Both => "both".into(),
            },
        );
    }

    /// A disk that is full from the n-th step on.
    pub fn full_from(self, command: &mut Command, n: usize) {
        self.at(command, any(n), Do::From(FULL));
    }

    /// Starts it and waits until the program that writes is before that step. It goes on once what is given back
    /// is dropped.
    pub fn stopped(self, temp: &Temp, mut command: Command, at: At) -> (Child, File) {
        let pipe = temp.at("step");
        let _ = fs::remove_file(&pipe);
        assert!(Command::new("mkfifo").arg(&pipe).status().unwrap().success());
        mode(&pipe, 0o666);
        const O_NONBLOCK: i32 = 0x800;
        let mut reads = File::options().read(true).custom_flags(O_NONBLOCK).open(&pipe).unwrap();
        self.watch(&mut command);
        command.env("SHIM_KINDS", at.kinds).env("SHIM_FILES", at.files);
        command.env("SHIM_AT", at.n.to_string()).env("SHIM_DO", "wait").env("SHIM_WAIT", &pipe);
        let mut child = command.spawn().unwrap();
        for _ in 0..60_000 {
            if let Ok(1) = reads.read(&mut [0]) {
                return (child, reads);
            }
            if let Some(status) = child.try_wait().unwrap() {
                panic!("{command:?} ended before {at:?}: {status}");
            }
            thread::sleep(Duration::from_millis(1));
        }
        panic!("{command:?} does not come to {at:?}");
    }
}

fn build() -> Option<PathBuf> {
    let mut hash = DefaultHasher::new();
    SOURCE.hash(&mut hash);
    let folder = Path::new(env!("CARGO_TARGET_TMPDIR"));
    let library = folder.join(format!("shim-{:x}.so", hash.finish()));
    if library.exists() {
        return Some(library);
    }
    // Other tests may build it at the same time.
    let own = folder.join(format!("shim-{}.so", std::process::id()));
    let source = Path::new(env!("CARGO_MANIFEST_DIR")).join("tests/support/shim.c");
    let run = Command::new("cc")
        .args(["-std=gnu11", "-Wall", "-Wextra", "-Werror", "-O1", "-shared", "-fPIC", "-o"])
        .args([&own, &source])
        .args(["-ldl", "-lpthread"])
        .output();
    let Ok(run) = run else {
        not_tried("what the program does on failing disks and after cuts: there is no cc");
        return None;
    };
    assert!(run.status.success(), "{}", String::from_utf8_lossy(&run.stderr));
    fs::rename(own, &library).unwrap();
    Some(library)
}

// The log ---------------------------------------------------------------------------------

/// A step, by the letters of shim.c.
#[derive(Debug, Clone)]
pub struct Step {
    pub what: u8,
    pub on: u8,
    pub failed: bool,
    pub process: u32,
    pub at: u64,
    /// The number of the folder whose names it changes or syncs.
    pub folder: u64,
    /// The number of the file.
    pub number: u64,
    pub len: u64,
    pub bytes: Vec<u8>,
}

pub const IMAGE: u8 = b'i';
pub const JOURNAL: u8 = b'j';
pub const RECORD: u8 = b'r';

pub fn read_log(path: &Path) -> Vec<Step> {
    steps_in(&fs::read(path).unwrap_or_default())
}

/// The steps of a log; one that is not whole is left out.
pub fn steps_in(log: &[u8]) -> Vec<Step> {
    const HEAD: usize = 48;
    let mut steps = Vec::new();
    let mut rest = log;
    while rest.len() >= HEAD {
        let number = |at: usize| u64::from_le_bytes(rest[at..at + 8].try_into().unwrap());
        let end = HEAD + number(40) as usize;
        if rest.len() < end {
            break;
        }
        steps.push(Step {
            what: rest[0],
            on: rest[1],
            failed: rest[2] != 0,
            process: number(4) as u32,
            at: number(8),
            folder: number(16),
            number: number(24),
            len: number(32),
            bytes: rest[HEAD..end].to_vec(),
        });
        rest = &rest[end..];
    }
    steps
}

impl Step {
    /// Whether it changes a file, or syncs it.
    pub fn counts(&self) -> bool {
        b"wsfcrut".contains(&self.what)
    }
}
