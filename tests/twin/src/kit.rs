// Links caller.c with the static library by the tools of the Rattle kit, and starts what they made and the program.

use std::env;
use std::ffi::OsStr;
use std::fs;
use std::io::{Error, Result};
use std::path::{Path, PathBuf};
use std::process::{Child, Command, Stdio};

const TARGET: &str = "x86_64-unknown-linux-gnu";

/// The folder of the static library: NOCTELVIA_LIB, or else the repository's target/staticlib.
fn library_folder() -> PathBuf {
    match env::var_os("NOCTELVIA_LIB") {
        Some(named) => PathBuf::from(named),
        None => Path::new(env!("CARGO_MANIFEST_DIR")).join("../../target/staticlib"),
    }
}

/// The kit whose `rt` is on the path.
fn kit_folder() -> Result<PathBuf> {
    let paths = env::var_os("PATH").unwrap_or_default();
    let rt = env::split_paths(&paths).map(|folder| folder.join("rt")).find(|path| path.is_file());
    let rt = rt.ok_or_else(|| Error::other("no rt on the path"))?;
    Ok(fs::canonicalize(rt)?.ancestors().nth(2).unwrap_or(Path::new("/")).to_path_buf())
}

/// Runs a tool to its end; what it says is shown only if it fails.
fn run(tool: &Path, arguments: &[&OsStr]) -> Result<()> {
    let done = Command::new(tool).args(arguments).stdin(Stdio::null()).output();
    let done = done.map_err(|error| Error::other(format!("{}: {error}", tool.display())))?;
    if done.status.success() {
        return Ok(());
    }
    Err(Error::other(format!("{}: {}", tool.display(), String::from_utf8_lossy(&done.stderr))))
}

/// Compiles the caller and links it with the library, in a folder of its own.
fn link(kit: &Path, folder: &Path) -> Result<PathBuf> {
    let library = library_folder().join("libeditor.a");
    if !library.is_file() {
        return Err(Error::other(format!("{} is missing: tests/native library makes it", library.display())));
    }
    let (source, object, program) = (folder.join("caller.c"), folder.join("caller.o"), folder.join("caller"));
    fs::write(&source, include_str!("../caller.c"))?;
    let target = format!("--target={TARGET}");
    let mut words: Vec<&OsStr> = [&target, "-O2", "-fPIC", "-ffreestanding", "-c", "-o"].map(OsStr::new).to_vec();
    words.extend([object.as_os_str(), source.as_os_str()]);
    run(&kit.join("toolchain/bin/clang"), &words)?;
    let toolchain = kit.join("toolchain");
    let mut words: Vec<&OsStr> = ["--target", TARGET, "--toolchain"].map(OsStr::new).to_vec();
    words.extend([toolchain.as_os_str(), OsStr::new("-o"), program.as_os_str()]);
    words.extend([object.as_os_str(), library.as_os_str()]);
    run(&kit.join("bin/rattle-link"), &words)?;
    Ok(program)
}

/// A path beside the program, among what cargo built, so that nothing is left in the sources.
pub fn beside_program(name: &str) -> Result<PathBuf> {
    Ok(env::current_exe()?.with_file_name(name))
}

/// A folder for this process alone, gone with all it holds when it is dropped.
pub struct Folder {
    path: PathBuf,
}

impl Folder {
    pub fn new() -> Result<Folder> {
        let path = beside_program(&format!("caller-{}", std::process::id()))?;
        fs::create_dir_all(&path)?;
        Ok(Folder { path })
    }
}

impl Drop for Folder {
    fn drop(&mut self) {
        let _ = fs::remove_dir_all(&self.path);
    }
}

/// The caller, linked in the folder and started, its input and output in our hands.
pub fn caller(folder: &Folder) -> Result<Child> {
    let program = link(&kit_folder()?, &folder.path)?;
    command(&program).stderr(Stdio::inherit()).spawn()
}

/// The planning program: NOCTELVIA_PROGRAM, or else the one that rt made, proved.
pub fn program() -> Result<PathBuf> {
    let made = Path::new(env!("CARGO_MANIFEST_DIR")).join("../../crates/noctelvia/out/noctelvia");
    let program = env::var_os("NOCTELVIA_PROGRAM").map_or(made, PathBuf::from);
    if !program.is_file() {
        return Err(Error::other(format!("{} is missing: tests/native program makes it", program.display())));
    }
    Ok(program)
}

/// A program to be started, its input and outputs in our hands and nothing from around it.
pub fn command(program: &Path) -> Command {
    let mut command = Command::new(program);
    command.env_clear();
    command.stdin(Stdio::piped()).stdout(Stdio::piped()).stderr(Stdio::piped());
    command
}
