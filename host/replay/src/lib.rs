//! Scripts of calls with the answers that they have to give (SOURCES.md), carried out through the C face.

pub mod run;
pub mod script;
#[path = "../../probe/src/zeros.rs"]
mod zeros;

use run::Stage;

/// What came of a script: how many calls there were, and each that gave something else.
#[derive(Debug, Default)]
pub struct Outcome {
    pub calls: usize,
    pub differ: Vec<String>,
}

/// An answer in words, cut where it is long.
fn shown(numbers: &[u64], text: &[u8]) -> String {
    let mut words: Vec<String> = numbers.iter().map(|n| format!("{n:#x}")).collect();
    if !text.is_empty() {
        words.push(format!("{:?}", String::from_utf8_lossy(text)));
    }
    let all = words.join(" ");
    match all.char_indices().nth(200) {
        Some((cut, _)) => format!("{} ..", &all[..cut]),
        None => all,
    }
}

/// Carries out a script. An error is a line that cannot be read or carried out.
pub fn replay(name: &str, text: &str) -> Result<Outcome, String> {
    let mut stage = Stage::new();
    let mut outcome = Outcome::default();
    for line in script::lines(text).map_err(|why| format!("{name}: {why}"))? {
        let at =
            |why: String| format!("{name}:{}: {}: {why}", line.place, line.left.words.join(" "));
        match &line.right {
            None => {
                let known = !line.left.words.is_empty() && stage.set_up(&line.left).map_err(at)?;
                if !known {
                    return Err(at("no such line".into()));
                }
            }
            Some(right) => {
                outcome.calls += 1;
                let expected = right.numbers(0).map_err(at)?;
                match stage.call(&line.left) {
                    Ok(given) if given.numbers == expected && given.text == right.text => {}
                    Ok(given) => outcome.differ.push(at(format!(
                        "gave {}, has to give {}",
                        shown(&given.numbers, &given.text),
                        shown(&expected, &right.text)
                    ))),
                    Err(why) => outcome.differ.push(at(why)),
                }
            }
        }
    }
    Ok(outcome)
}
