//! The man page and the completions for shells, from the table of commands: `counter help man`,
//! `bash`, `zsh` and `fish`. host/install puts them where they belong.

use crate::args::{FORMS, Flag, Form, GROUPS, Value};
use crate::help;
use crate::version::VERSION;
use std::fmt::Write;

pub fn page(name: &str) -> Option<String> {
    match name {
        "man" => Some(man()),
        "bash" => Some(bash()),
        "zsh" => Some(zsh()),
        "fish" => Some(fish()),
        _ => None,
    }
}

// The man page ----------------------------------------------------------------------------

/// Text as troff takes it.
fn roff(text: &str) -> String {
    let text = text.replace('\\', "\\e").replace('-', "\\-").replace('`', "\\(ga");
    let quoted = |line: &str| match line.starts_with(['.', '\'']) {
        true => format!("\\&{line}"),
        false => line.to_string(),
    };
    text.lines().map(quoted).collect::<Vec<_>>().join("\n")
}

/// A part of `help`: points, and names with what is said about them, as paragraphs that are filled.
fn section(out: &mut String, heading: &str, text: &str) {
    let _ = writeln!(out, ".SH {heading}");
    for line in text.lines().skip(1) {
        let words = line.trim_start();
        let deeper = line.len() - words.len() >= 4;
        let _ = match (words.strip_prefix("- "), words.split_once("  ")) {
            _ if deeper => writeln!(out, "{}", roff(words)),
            (Some(point), _) => writeln!(out, ".IP \\(bu 2\n{}", roff(point)),
            (None, Some((name, about))) => {
                writeln!(out, ".TP\n.B {}\n{}", roff(name), roff(about.trim_start()))
            }
            _ => writeln!(out, ".PP\n{}", roff(words)),
        };
    }
}

fn man() -> String {
    let mut out = format!(
        ".TH COUNTER 1 \"\" \"counter {VERSION}\" \"User Commands\"\n.SH NAME\ncounter \\- {}\n\
         .SH SYNOPSIS\n.B counter\n.I COMMAND IMAGE\n\\&...\n.br\n.B counter help\n.RI [ COMMAND ]\n\
         .SH DESCRIPTION\nLooks at GameCube disc images, edits them and compares them. The library that \
         reads and edits is proved; a refused edit leaves every byte as it was.\n",
        roff(help::PURPOSE)
    );
    for (group, name) in GROUPS {
        let _ = writeln!(out, ".SH {}", name.to_uppercase());
        for form in FORMS.iter().filter(|form| form.group == group) {
            let usages = form.usages().iter().map(|usage| roff(usage)).collect::<Vec<_>>();
            let _ = writeln!(out, ".TP\n.B {}\n{}", usages.join("\n.TQ\n.B "), roff(form.words));
            for line in form.more.lines() {
                let _ = writeln!(out, ".IP\n{}", roff(line));
            }
            let _ = writeln!(out, ".IP\n.EX\n{}\n.EE", roff(&form.examples.join("\n")));
        }
    }
    section(&mut out, "ARGUMENTS", &help::all_arguments());
    for (subject, _) in help::SUBJECTS.into_iter().filter(|(subject, _)| *subject != "all") {
        let heading = match subject {
            "exit" => "EXIT STATUS".to_string(),
            other => other.to_uppercase(),
        };
        section(&mut out, &heading, &help::about(subject).unwrap_or_default());
    }
    out.push_str(".SH SEE ALSO\n.BR sha256sum (1)\n");
    out
}

// Completions -----------------------------------------------------------------------------

/// The first clause of what is said about a command or an option.
fn brief(words: &str) -> &str {
    words.split("; ").next().unwrap_or(words)
}

fn kind(value: Value) -> &'static str {
    match value {
        Value::File | Value::New => "file",
        Value::Entry => "entry",
        Value::Number => "number",
    }
}

fn kinds(form: &Form) -> String {
    form.operands.iter().map(|operand| kind(operand.value)).collect::<Vec<_>>().join(" ")
}

fn names(form: &Form) -> String {
    let mut names: Vec<&str> = form.flags.iter().map(|flag| flag.name).collect();
    names.push("--help");
    names.join(" ")
}

fn commands() -> Vec<&'static str> {
    FORMS.iter().map(|form| form.name).collect()
}

fn subjects() -> String {
    let subjects = help::SUBJECTS.iter().map(|(name, _)| *name);
    commands().into_iter().chain(subjects).collect::<Vec<_>>().join(" ")
}

/// Options that take a value, between `|`.
fn valued() -> String {
    let mut found: Vec<&str> = Vec::new();
    for flag in FORMS.iter().flat_map(|form| form.flags) {
        if flag.value.is_some() && !found.contains(&flag.name) {
            found.push(flag.name);
        }
    }
    found.join("|")
}

/// Those of a command whose value is a file, between spaces.
fn filed(form: &Form) -> String {
    let is_filed = |flag: &Flag| flag.value.is_some_and(|(_, value)| is_file(value));
    let filed = form.flags.iter().filter(|flag| is_filed(flag));
    filed.fold(" ".into(), |all, flag| all + flag.name + " ")
}

fn is_file(value: Value) -> bool {
    kind(value) == "file"
}

/// The paths of an image, as they are typed.
const PATHS: &str = "--paths 2>/dev/null";

fn bash() -> String {
    let mut cases = String::new();
    for form in FORMS {
        let _ = writeln!(
            cases,
            "        {}) options='{}' operands=({}) filed='{}' ;;",
            form.name,
            names(form),
            kinds(form),
            filed(form)
        );
    }
    let (valued, subjects) = (valued(), subjects());
    let commands = commands().join(" ");
    format!(
        r#"# bash completion for counter; made by `counter help bash`
# What was typed, without quotes and backslashes and with ~/ as the home folder; nothing of it is carried out.
_counter_plain() {{
    local typed=$1 out= c quote= i
    for ((i = 0; i < ${{#typed}}; i++)); do
        c=${{typed:i:1}}
        if [[ $c == "$quote" ]]; then
            quote=
        elif [[ $quote == \' ]]; then
            out+=$c
        elif [[ $c == \\ ]] && [[ -z $quote || ${{typed:i+1:1}} == [\"\\\$\`] ]]; then
            ((i++))
            out+=${{typed:i:1}}
        elif [[ -z $quote && ( $c == \' || $c == \" ) ]]; then
            quote=$c
        else
            out+=$c
        fi
    done
    [[ $typed == '~/'* ]] && out=$HOME${{out:1}}
    printf '%s' "$out"
}}
_counter() {{
    local cur=${{COMP_WORDS[COMP_CWORD]}} prev=${{COMP_WORDS[COMP_CWORD-1]}}
    local options operands filed i n=0 image= path quoted
    COMPREPLY=()
    if ((COMP_CWORD == 1)); then
        COMPREPLY=($(compgen -W '{commands} help --version' -- "$cur"))
        return
    fi
    case ${{COMP_WORDS[1]}} in
{cases}        help) COMPREPLY=($(compgen -W '{subjects}' -- "$cur")); return ;;
        *) return ;;
    esac
    if [[ $filed == *" $prev "* ]]; then
        compopt -o filenames
        mapfile -t COMPREPLY < <(compgen -f -- "$cur")
        return
    fi
    [[ $prev == @({valued}) ]] && return
    if [[ $cur == -* ]]; then
        COMPREPLY=($(compgen -W "$options" -- "$cur"))
        return
    fi
    for ((i = 2; i < COMP_CWORD; i++)); do
        case ${{COMP_WORDS[i]}} in
            {valued}) ((i++)) ;;
            -*) ;;
            *) ((n++ == 0)) && image=${{COMP_WORDS[i]}} ;;
        esac
    done
    case ${{operands[n]}} in
        file)
            compopt -o filenames
            mapfile -t COMPREPLY < <(compgen -f -- "$cur")
            ;;
        entry)
            image=$(_counter_plain "$image")
            while IFS= read -r path; do
                printf -v quoted %q "$path"
                [[ $path == "$cur"* || $quoted == "$cur"* ]] && COMPREPLY+=("$quoted")
            done < <(counter tree "$image" {PATHS})
            ;;
    esac
}}
complete -F _counter counter
"#
    )
}

/// Text between single quotes of zsh, with what `_arguments` and `_describe` take apart.
fn zsh_quoted(text: &str) -> String {
    let text = text.replace('\\', "\\\\").replace(':', "\\:");
    text.replace('[', "\\[").replace(']', "\\]").replace('\'', "'\\''")
}

fn zsh() -> String {
    let mut out = String::from(
        "#compdef counter\n# zsh completion for counter; made by `counter help zsh`\n\n\
         _counter_paths() {\n    local -a found\n    local image=${${words[2,-1]}[(r)[^-]*]}\n",
    );
    let _ = write!(
        out,
        "    found=(${{(f)\"$(counter tree ${{(Q)image}} {PATHS})\"}})\n    compadd -a found\n}}\n\n\
         _counter() {{\n    local -a commands\n    commands=(\n"
    );
    for form in FORMS {
        let _ = writeln!(out, "        '{}:{}'", form.name, zsh_quoted(brief(form.words)));
    }
    out.push_str(
        "        'help:tells about a command, or about names, safety, exit and json'\n    )\n",
    );
    out.push_str("    if ((CURRENT == 2)); then\n        _describe command commands\n        return\n    fi\n");
    out.push_str("    shift words\n    ((CURRENT--))\n    case $words[1] in\n");
    let action = |value| match value {
        Value::File | Value::New => "_files",
        Value::Entry => "_counter_paths",
        Value::Number => " ",
    };
    for form in FORMS {
        let _ = write!(out, "        {}) _arguments", form.name);
        for flag in form.flags {
            let more = flag.value.map_or(String::new(), |(name, value)| {
                format!(":{}:{}", zsh_quoted(name), action(value))
            });
            let many = if flag.name == "--given" { "*" } else { "" };
            let _ = write!(out, " '{many}{}[{}]{more}'", flag.name, zsh_quoted(brief(flag.words)));
        }
        for (i, operand) in form.operands.iter().enumerate() {
            let colon = if operand.needed { ":" } else { "::" };
            let _ = write!(
                out,
                " '{}{colon}{}:{}'",
                i + 1,
                zsh_quoted(operand.name),
                action(operand.value)
            );
        }
        out.push_str(" ;;\n");
    }
    let _ = write!(
        out,
        "        help) _arguments '1:subject:({})' ;;\n    esac\n}}\n\n_counter \"$@\"\n",
        subjects()
    );
    out
}

fn fish_quoted(text: &str) -> String {
    format!("'{}'", text.replace('\\', "\\\\").replace('\'', "\\'"))
}

fn fish() -> String {
    let mut out = String::from(
        "# fish completion for counter; made by `counter help fish`\n\
         # Whether the word that is typed is an operand of this kind.\n\
         function __counter_operand\n    set -l words (commandline -opc)\n    set -l kinds\n    switch \"$words[2]\"\n",
    );
    for form in FORMS {
        let _ = writeln!(out, "        case {}\n            set kinds {}", form.name, kinds(form));
    }
    let valued = valued().replace('|', " ");
    let _ = write!(
        out,
        "    end\n    set -l n 1\n    set -l skip 0\n    for word in $words[3..-1]\n        if test $skip = 1\n\
         \x20           set skip 0\n        else if contains -- $word {valued}\n            set skip 1\n\
         \x20       else if not string match -q -- '-*' $word\n            set n (math $n + 1)\n        end\n    end\n\
         \x20   test $skip = 0; and test \"$kinds[$n]\" = \"$argv[1]\"\nend\n\n\
         function __counter_paths\n    set -l words (commandline -opc)\n    for word in $words[3..-1]\n\
         \x20       if not string match -q -- '-*' $word\n            counter tree $word {PATHS}\n            return\n\
         \x20       end\n    end\nend\n\ncomplete -c counter -f\n\
         complete -c counter -n '__counter_operand file' -F\n\
         complete -c counter -n '__counter_operand entry' -a '(__counter_paths)'\n"
    );
    for form in FORMS {
        let words = fish_quoted(brief(form.words));
        let _ = writeln!(
            out,
            "complete -c counter -n __fish_use_subcommand -a {} -d {words}",
            form.name
        );
    }
    out.push_str(
        "complete -c counter -n __fish_use_subcommand -a help -d 'tells about a command'\n",
    );
    let _ = writeln!(
        out,
        "complete -c counter -n '__fish_seen_subcommand_from help' -a '{}'",
        subjects()
    );
    for form in FORMS {
        for flag in form.flags {
            let value = match flag.value {
                Some((_, value)) if is_file(value) => " -r -F",
                Some(_) => " -x",
                None => "",
            };
            let _ = writeln!(
                out,
                "complete -c counter -n '__fish_seen_subcommand_from {}' -l {}{value} -d {}",
                form.name,
                flag.name.trim_start_matches('-'),
                fish_quoted(brief(flag.words))
            );
        }
    }
    out
}
