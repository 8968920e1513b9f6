//! replay [SCRIPT..]: carries out scripts of calls, those of this folder where none is named. Prints
//! each call that gives something else than it has to, and how many calls there were; the exit status is 1 if any differs.

use std::path::{Path, PathBuf};
use std::{env, fs, process};

fn scripts() -> Result<Vec<PathBuf>, String> {
    let named: Vec<PathBuf> = env::args_os().skip(1).map(PathBuf::from).collect();
    if !named.is_empty() {
        return Ok(named);
    }
    let folder = Path::new(env!("CARGO_MANIFEST_DIR")).join("scripts");
    let found = fs::read_dir(&folder).map_err(|e| format!("{}: {e}", folder.display()))?;
    let mut all: Vec<PathBuf> = found.flatten().map(|entry| entry.path()).collect();
    all.sort();
    Ok(all)
}

fn run() -> Result<bool, String> {
    let (mut calls, mut differ) = (0, 0);
    for path in scripts()? {
        let text = fs::read_to_string(&path).map_err(|e| format!("{}: {e}", path.display()))?;
        let name = path.file_name().unwrap_or_default().to_string_lossy();
        let outcome = replay::replay(&name, &text)?;
        calls += outcome.calls;
        differ += outcome.differ.len();
        outcome.differ.iter().for_each(|line| println!("{line}"));
    }
    println!("{calls} calls, {differ} differ");
    Ok(differ == 0)
}

fn main() {
    match run() {
        Ok(true) => {}
        Ok(false) => process::exit(1),
        Err(why) => {
            eprintln!("replay: {why}");
            process::exit(2);
        }
    }
}
