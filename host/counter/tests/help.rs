//! `help`, the man page and the completions: what they say is so.

mod support;

use std::fs;
use std::io::Write;
use std::path::Path;
use std::process::{Command, Stdio};
use support::*;

const COMMANDS: [&str; 27] = [
    "info", "list", "tree", "free", "find", "place", "clear", "record", "cat", "extract", "dol",
    "map", "check", "compare", "hash", "report", "mkdir", "add", "move", "resize", "fill",
    "rewrite", "maximum", "sheet", "recover", "new", "tables",
];

/// A folder with the files that the examples name.
fn fixture() -> Temp {
    let temp = Temp::new();
    let disc = temp.at("disc.iso");
    sparse(&disc, &usual(0x10_0000, 0x4_5678), 0x20_0000);
    fs::copy(&disc, temp.at("before.iso")).unwrap();
    for master in ["ours.iso", "theirs.iso"] {
        fs::copy(&disc, temp.at(master)).unwrap();
    }
    temp.write("before.sums", done("hash", &disc, &[]).as_bytes());
    done("move", &disc, &["audio/theme.adp", "0x190000"]);
    temp.write("given.txt", b"/audio/theme.adp\n");
    temp.write("msg.bin", b"the new lines");
    temp.write(
        "teams.txt",
        b"# number, limit, share, name\n0 none 256K English\n1 512K 128K French\n",
    );
    temp.write("day.txt", b"mkdir /text/de\nresize /text/en/msg.bin 5000\n");
    shell(&temp, "counter sheet --compile day.txt rest.sheet");
    temp.write("wishes.txt", b"/opening.bnr 0x1960\n/text/fr/lines.bin 4661\n");
    fs::create_dir_all(temp.at("parts/text")).unwrap();
    temp.write("parts/text/lines.bin", b"lines");
    temp
}

fn shell(temp: &Temp, line: &str) -> Run {
    let program = Path::new(env!("CARGO_BIN_EXE_counter")).parent().unwrap();
    let path = format!("{}:{}", program.display(), std::env::var("PATH").unwrap());
    Command::new("sh")
        .args(["-c", line])
        .current_dir(temp.at(""))
        .env("PATH", path)
        .env("LC_ALL", "C.UTF-8")
        .output()
        .unwrap()
        .into()
}

#[test]
fn every_example_works() {
    let mut tried = 0;
    for command in COMMANDS {
        let help = run(&["help", command]);
        assert_eq!(help.status, 0, "{command}: {}", help.err);
        let examples = help.out.split("\nExamples\n").nth(1).unwrap();
        let examples: Vec<&str> =
            examples.lines().take_while(|line| line.starts_with("  counter ")).collect();
        assert!(!examples.is_empty(), "{command} has no example");
        let temp = fixture();
        for example in examples {
            let run = shell(&temp, example);
            assert_eq!(run.status, 0, "{example}: {}{}", run.out, run.err);
            tried += 1;
        }
    }
    println!("{tried} examples");
}

#[test]
fn help_comes_in_every_way_and_is_about_its_command_alone() {
    let flags = [
        "--json",
        "--wait",
        "--dry-run",
        "--all",
        "--clusters",
        "--paths",
        "--bytes",
        "--demo",
        "--out",
        "--given",
        "--only-differences",
        "--map",
        "--tables",
        "--as-is",
        "--anyway",
        "--without-record",
        "--record",
        "--team",
        "--teams",
        "--force",
        "--from",
        "--size",
        "--empty",
        "--code",
        "--from-dir",
        "--compile",
        "--show",
        "--budget",
        "--sheet",
        "--clear",
        "--into",
    ];
    for command in COMMANDS {
        let help = run(&["help", command]).out;
        for args in [&[command, "--help"][..], &[command, "-h"], &[command, "x", "y", "-h", "z"]] {
            let run = run(args);
            assert_eq!((run.status, run.out.as_str(), run.err.as_str()), (0, help.as_str(), ""));
        }
        assert!(help.lines().all(|line| line.chars().count() <= 104), "{command}: {help}");
        // An option is told exactly if the command takes it.
        let usage = help.split("\n      ").next().unwrap().to_string();
        for flag in flags {
            let told = help.contains(&format!("\n  {flag} "));
            let run = run(&[command, flag, "a", "b", "c", "d", "e"]);
            assert_eq!(run.status, 64, "{command} {flag}");
            assert_eq!(run.err.contains("has no option"), !told, "{command} {flag}: {}", run.err);
        }
        assert!(usage.starts_with(&format!("  counter {command} ")), "{usage}");
        // What an edit promises is told of edits.
        let at = |name| COMMANDS.iter().position(|known| *known == name).unwrap();
        let edits = COMMANDS[at("mkdir")..at("new")].contains(&command);
        assert_eq!(help.contains("\nSafety\n"), edits, "{command}");
    }
    // After `--` it is an operand.
    assert_ne!(run(&["find", "nothing.iso", "--", "--help"]).status, 0);
    assert!(run(&["help"]).out.lines().all(|line| line.chars().count() <= 110));
}

#[test]
fn the_first_page_fits_a_screen() {
    for args in [&["help"][..], &["--help"], &["-h"]] {
        let page = run(args).out;
        assert!(page.lines().count() <= 24, "{page}");
        assert!(page.lines().all(|line| line.chars().count() <= 80), "{page}");
        for command in COMMANDS {
            assert!(page.split_whitespace().any(|word| word == command), "{command}: {page}");
        }
    }
}

#[test]
fn the_nearest_command_is_told() {
    for (typed, wanted) in [
        ("comapre", Some("compare")),
        ("lst", Some("list")),
        ("Info", Some("info")),
        ("extrac", Some("extract")),
        ("mkdr", Some("mkdir")),
        ("fil", Some("fill")),
        ("recovr", Some("recover")),
        ("frobnicate", None),
        ("x", None),
        ("", None),
    ] {
        let run = run(&[typed]);
        assert_eq!(run.status, 64, "{typed}");
        match wanted {
            Some(wanted) => {
                assert!(run.err.contains(&format!("is {wanted} meant?")), "{typed}: {}", run.err)
            }
            None => assert!(!run.err.contains("meant?"), "{typed}: {}", run.err),
        }
    }
    assert!(run(&["help", "safty"]).err.contains("is safety meant?"));
    assert!(run(&["list", "x", "--as_is"]).err.contains("is --as-is meant?"));
}

#[test]
fn the_man_page_is_one() {
    let page = run(&["help", "man"]);
    assert_eq!(page.status, 0);
    for command in COMMANDS {
        assert!(page.out.contains(&format!(".B counter {command} ")), "{command}");
    }
    for heading in
        ["NAME", "SYNOPSIS", "LOOK", "CHECK", "EDIT", "MAKE", "SAFETY", "EXIT STATUS", "JSON"]
    {
        assert!(page.out.contains(&format!("\n.SH {heading}\n")), "{heading}");
    }
    let spawned = Command::new("groff")
        .args(["-man", "-Tutf8", "-ww"])
        .stdin(Stdio::piped())
        .stdout(Stdio::piped())
        .stderr(Stdio::piped())
        .spawn();
    let Ok(mut groff) = spawned else {
        not_tried("the man page as groff shows it: there is no groff");
        return;
    };
    groff.stdin.take().unwrap().write_all(page.out.as_bytes()).unwrap();
    let shown: Run = groff.wait_with_output().unwrap().into();
    assert_eq!((shown.status, shown.err.as_str()), (0, ""));
    let words: Vec<&str> = shown.out.split_whitespace().collect();
    assert!(words.join(" ").contains("moves the file at PATH to OFFSET"), "{}", shown.out);
}

/// What bash offers after these words, the last one unfinished.
fn offered(temp: &Temp, words: &[&str]) -> Vec<String> {
    let quoted: Vec<String> = words.iter().map(|word| format!("'{word}'")).collect();
    let line = format!(
        "counter help bash > completion && bash --norc -c 'compopt() {{ :; }}; . ./completion; \
         COMP_WORDS=({}); COMP_CWORD={}; _counter; printf \"%s\\\\n\" \"${{COMPREPLY[@]}}\"'",
        quoted.join(" ").replace('\'', "'\\''"),
        words.len() - 1
    );
    let run = shell(temp, &line);
    assert_eq!((run.status, run.err.as_str()), (0, ""), "{words:?}");
    run.out.lines().filter(|line| !line.is_empty()).map(String::from).collect()
}

#[test]
fn bash_completes_commands_options_files_and_paths() {
    let temp = fixture();
    let commands = offered(&temp, &["counter", ""]);
    for command in COMMANDS {
        assert!(commands.iter().any(|offer| offer == command), "{command}");
    }
    let offered = |words: &[&str]| offered(&temp, words);
    assert_eq!(offered(&["counter", "comp"]), ["compare"]);
    assert_eq!(offered(&["counter", "compare", "--on"]), ["--only-differences"]);
    assert_eq!(offered(&["counter", "compare", "before.iso", "--ta"]), ["--tables"]);
    assert_eq!(offered(&["counter", "free", "disc.iso", "--c"]), ["--clusters"]);
    assert_eq!(offered(&["counter", "list", "dis"]), ["disc.iso"]);
    assert_eq!(
        offered(&["counter", "compare", "before.iso", "disc.iso", "--given", "gi"]),
        ["given.txt"]
    );
    assert_eq!(offered(&["counter", "move", "disc.iso", "--rec"]), ["--record"]);
    assert_eq!(offered(&["counter", "move", "disc.iso", "--te"]), ["--team"]);
    assert_eq!(offered(&["counter", "record", "disc.iso", "--teams", "te"]), ["teams.txt"]);
    assert_eq!(offered(&["counter", "move", "--team", "1", "disc.iso", "/op"]), ["/opening.bnr"]);
    assert_eq!(
        offered(&["counter", "move", "--record", "given.txt", "disc.iso", "/op"]),
        ["/opening.bnr"]
    );
    assert_eq!(offered(&["counter", "find", "disc.iso", "/op"]), ["/opening.bnr"]);
    let text = offered(&["counter", "move", "--dry-run", "disc.iso", "/text/"]);
    assert_eq!(text, ["/text/", "/text/en/", "/text/en/msg.bin", "/text/fr/", "/text/fr/msg.bin"]);
    assert_eq!(offered(&["counter", "move", "disc.iso", "/opening.bnr", ""]), [""; 0]);
    assert_eq!(offered(&["counter", "fill", "disc.iso", "/opening.bnr", "ms"]), ["msg.bin"]);
    let fill = ["counter", "fill", "disc.iso", "/opening.bnr", "--from", "before.i"];
    assert_eq!(offered(&fill), ["before.iso"]);
    // A number is not completed, and no operand.
    assert_eq!(offered(&["counter", "fill", "--size", ""]), [""; 0]);
    assert_eq!(offered(&["counter", "fill", "--size", "3", "disc.iso", "/op"]), ["/opening.bnr"]);
    assert_eq!(offered(&["counter", "new", "new.iso", "--fr"]), ["--from", "--from-dir"]);
    assert_eq!(offered(&["counter", "new", "new.iso", "--from", "wi"]), ["wishes.txt"]);
    assert_eq!(offered(&["counter", "sheet", "--compile", "day"]), ["day.txt"]);
    assert_eq!(offered(&["counter", "sheet", "disc.iso", "re"]), ["rest.sheet"]);
    // The number of a line.
    assert_eq!(offered(&["counter", "sheet", "disc.iso", "--from", ""]), [""; 0]);
    assert_eq!(offered(&["counter", "clear", "disc.iso", "1M", "--sh"]), ["--sheet"]);
    assert_eq!(offered(&["counter", "clear", "disc.iso", "1M", "--sheet", "da"]), ["day.txt"]);
    assert_eq!(offered(&["counter", "clear", "--budget", "3", "dis"]), ["disc.iso"]);
    assert_eq!(offered(&["counter", "map", "disc.iso", "--cl"]), ["--clear"]);
    assert_eq!(offered(&["counter", "tables", "3", "--in"]), ["--into"]);
    assert_eq!(offered(&["counter", "tables", "3", "--into", "pa"]), ["parts"]);
    // A number is no file.
    assert_eq!(offered(&["counter", "tables", ""]), [""; 0]);
    assert_eq!(offered(&["counter", "help", "saf"]), ["safety"]);
}

/// The image's name is typed with quotes, and may hold anything; nothing of it is carried out.
#[test]
fn bash_carries_out_nothing_of_what_was_typed() {
    let temp = fixture();
    let text = run(&["help", "bash"]).out;
    assert!(!text.contains("eval"), "{text}");
    for (name, typed) in [
        ("a b.iso", "a\\ b.iso"),
        ("a b.iso", "\"a b.iso\""),
        ("$(touch spoiled).iso", "\\$(touch\\ spoiled).iso"),
        ("$(touch spoiled).iso", "\"$(touch spoiled).iso\""),
        ("`touch spoiled`.iso", "`touch spoiled`.iso"),
        ("x;touch spoiled.iso", "x;touch spoiled.iso"),
    ] {
        fs::copy(temp.at("disc.iso"), temp.at(name)).unwrap();
        let offers = offered(&temp, &["counter", "find", typed, "/op"]);
        assert!(!temp.at("spoiled").exists() && !temp.at("spoiled.iso").exists(), "{typed}");
        assert_eq!(offers, ["/opening.bnr"], "{typed}");
    }
}

#[test]
fn zsh_and_fish_read_their_completions() {
    let temp = fixture();
    for (name, check) in [("bash", "bash -n"), ("zsh", "zsh -n"), ("fish", "fish --no-execute")] {
        let text = run(&["help", name]).out;
        for command in COMMANDS {
            assert!(text.contains(command), "{name}: {command}");
        }
        temp.write(name, text.as_bytes());
        let run = shell(&temp, &format!("command -v {name} >/dev/null || exit 42; {check} {name}"));
        match run.status {
            42 if name != "bash" => not_tried(&format!("completions: there is no {name}")),
            status => assert_eq!((status, run.err.as_str()), (0, ""), "{name}"),
        }
    }
}

#[test]
fn install_puts_everything_under_a_prefix() {
    let host = Path::new(env!("CARGO_MANIFEST_DIR")).join("..");
    assert!(host.join("target/release/counter").exists(), "host/build puts the program there");
    // The program is built already, so that cargo has nothing to do.
    let temp = Temp::new();
    temp.write("libcounter.a", b"");
    let cargo = temp.write("cargo", b"#!/bin/sh\n");
    fs::set_permissions(&cargo, std::os::unix::fs::PermissionsExt::from_mode(0o755)).unwrap();
    let path = format!("{}:{}", temp.at("").display(), std::env::var("PATH").unwrap());
    let install = |prefix: &str| -> Run {
        Command::new(host.join("install"))
            .arg(prefix)
            .current_dir(temp.at(""))
            .env("PATH", &path)
            .env("COUNTER_LIB", temp.at(""))
            .output()
            .unwrap()
            .into()
    };
    for _ in 0..2 {
        let run = install("pre fix");
        assert_eq!(run.status, 0, "{}", run.err);
        assert!(run.out.contains("/pre fix/bin is not on the PATH"), "{}", run.out);
    }
    let prefix = temp.at("pre fix");
    let version = Command::new(prefix.join("bin/counter")).arg("--version").output().unwrap();
    assert!(version.status.success());
    for (page, place) in [
        ("man", "share/man/man1/counter.1"),
        ("bash", "share/bash-completion/completions/counter"),
        ("zsh", "share/zsh/site-functions/_counter"),
        ("fish", "share/fish/vendor_completions.d/counter.fish"),
    ] {
        let wanted =
            Command::new(prefix.join("bin/counter")).args(["help", page]).output().unwrap();
        assert!(fs::read(prefix.join(place)).unwrap() == wanted.stdout, "{page}");
    }
    assert_eq!(install("").status, 64);
    assert_eq!(install("--prefix=/usr").status, 64);
}

/// The three scripts, with a cargo that tells where it is and which library it has.
#[test]
fn the_library_is_found_from_where_one_stands() {
    let host = Path::new(env!("CARGO_MANIFEST_DIR")).join("..").canonicalize().unwrap();
    let temp = Temp::new();
    let cargo = temp.write("cargo", b"#!/bin/sh\necho \"$PWD has $COUNTER_LIB\"\nexit 42\n");
    fs::set_permissions(&cargo, std::os::unix::fs::PermissionsExt::from_mode(0o755)).unwrap();
    for folder in ["lib/inner", "empty", "elsewhere/lib", "elsewhere/host"] {
        fs::create_dir_all(temp.at(folder)).unwrap();
    }
    temp.write("lib/inner/libcounter.a", b"");
    temp.write("elsewhere/lib/libcounter.a", b"");
    std::os::unix::fs::symlink(&host, temp.at("host")).unwrap();
    let path = format!("{}:{}", temp.at("").display(), std::env::var("PATH").unwrap());
    let call = |script: &str, library: &str| -> Run {
        let mut command = Command::new("bash");
        command.arg(format!("host/{script}"));
        if script == "install" {
            command.arg("prefix");
        }
        let command = command.current_dir(temp.at("")).env("PATH", &path);
        // A shell that looks for folders elsewhere, too.
        let command = command.env("CDPATH", temp.at("elsewhere")).env("COUNTER_LIB", library);
        command.output().unwrap().into()
    };
    let inner = temp.at("lib/inner").canonicalize().unwrap();
    for script in ["build", "test", "install"] {
        for library in ["lib/inner", "./lib/../lib/inner/", inner.to_str().unwrap()] {
            let run = call(script, library);
            assert_eq!(run.status, 42, "{script} {library}: {}{}", run.out, run.err);
            assert!(run.out.contains(&format!("host has {}\n", inner.display())), "{}", run.out);
        }
        let run = call(script, "empty");
        assert_eq!(run.status, 66, "{script}: {}", run.out);
        assert!(
            run.err.contains("COUNTER_LIB=empty: there is no libcounter.a in that folder"),
            "{}",
            run.err
        );
        let run = call(script, "nothing");
        assert_eq!(run.status, 66, "{script}: {}", run.out);
        assert!(run.err.contains("COUNTER_LIB=nothing: there is no such folder"), "{}", run.err);
    }
}
