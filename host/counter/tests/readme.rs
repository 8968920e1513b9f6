//! The examples of README and guide: each command is run, and says what the page says.

mod support;

use std::fs;
use std::path::Path;
use std::process::Command;
use support::Temp;

/// Commands and what they print, from the page's blocks: a line `$ COMMAND`, then its output.
fn example(page: &str) -> Vec<(String, String)> {
    let mut found: Vec<(String, String)> = Vec::new();
    // Each second piece is a block; one of code has its language in its first line.
    for block in page.split("```").skip(1).step_by(2).filter(|block| block.starts_with("\n$ ")) {
        for line in block.lines().skip(1) {
            match (line.strip_prefix("$ "), found.last_mut()) {
                (Some(command), _) => found.push((command.to_string(), String::new())),
                (None, Some((_, out))) => out.push_str(&format!("{line}\n")),
                (None, None) => {}
            }
        }
    }
    found
}

#[test]
fn the_worked_example_is_what_the_program_says() {
    follows("README.md");
}

#[test]
fn the_guide_is_what_the_program_says() {
    follows("docs/GUIDE.md");
}

fn follows(page: &str) {
    let root = Path::new(env!("CARGO_MANIFEST_DIR")).join("../..");
    let page = fs::read_to_string(root.join(page)).unwrap();
    let temp = Temp::new();
    let program = Path::new(env!("CARGO_BIN_EXE_counter")).parent().unwrap();
    let path = format!("{}:{}", program.display(), std::env::var("PATH").unwrap());
    std::os::unix::fs::symlink(root.join("crates").canonicalize().unwrap(), temp.at("crates"))
        .unwrap();
    let example = example(&page);
    for (command, wanted) in &example {
        let run = Command::new("sh")
            .args(["-c", &format!("exec 2>&1; {command}")])
            .current_dir(temp.at(""))
            .env("PATH", &path)
            .env("LC_ALL", "C.UTF-8")
            .output()
            .unwrap();
        assert_eq!(String::from_utf8_lossy(&run.stdout), *wanted, "{command}");
    }
    // Whoever tries them in a checkout leaves nothing that git would take for a part of it.
    let ignored = fs::read_to_string(root.join(".gitignore")).unwrap();
    for entry in fs::read_dir(temp.at("")).unwrap() {
        let name = entry.unwrap().file_name().into_string().unwrap();
        let line = format!("/{name}");
        assert!(name == "crates" || ignored.lines().any(|it| it == line), "{name}");
    }
    assert!(example.len() > 8);
    println!("{} commands", example.len());
}
