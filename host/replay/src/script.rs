//! The lines of a script (SOURCES.md): words, and what stands behind ` = `.

/// A part of a line: its words, and its texts as bytes.
#[derive(Debug, Default, Clone, PartialEq, Eq)]
pub struct Part {
    pub words: Vec<String>,
    pub text: Vec<u8>,
}

impl Part {
    /// The words from `from` on, as numbers; a team's four are one word.
    pub fn numbers(&self, from: usize) -> Result<Vec<u64>, String> {
        self.words.iter().skip(from).flat_map(|word| word.split(':')).map(number).collect()
    }

    /// The word `at` as numbers parted by commas; none for `-`, or where it is not there.
    pub fn list(&self, at: usize) -> Result<Vec<u64>, String> {
        match self.words.get(at).map_or("-", String::as_str) {
            "-" => Ok(vec![]),
            word => word.split(',').map(number).collect(),
        }
    }
}

#[derive(Debug, Clone, PartialEq, Eq)]
pub struct Line {
    /// Its number in the script, from 1 on.
    pub place: usize,
    pub left: Part,
    /// The answer, where it is a call.
    pub right: Option<Part>,
}

fn number(word: &str) -> Result<u64, String> {
    let read = match word.strip_prefix("0x") {
        Some(digits) => u64::from_str_radix(digits, 16),
        None => word.parse(),
    };
    read.map_err(|_| format!("`{word}` is no number"))
}

fn hex(digits: &str) -> Result<Vec<u8>, String> {
    let byte = |i| digits.get(i..i + 2).and_then(|pair| u8::from_str_radix(pair, 16).ok());
    (0..digits.len())
        .step_by(2)
        .map(|i| byte(i).ok_or_else(|| format!("`:{digits}` are no bytes in base 16")))
        .collect()
}

/// Reads one line, with the texts in it that go over several; `None` at the end of the script.
fn line(rest: &mut &str, place: &mut usize) -> Result<Option<Line>, String> {
    let (mut left, mut right, start) = (Part::default(), None, *place);
    loop {
        *rest = rest.trim_start_matches([' ', '\t']);
        let Some(first) = rest.chars().next() else {
            break;
        };
        let part = right.as_mut().unwrap_or(&mut left);
        let end = match first {
            '\n' => break,
            '#' => rest.find('\n').unwrap_or(rest.len()),
            '"' => {
                let end = rest[1..].find('"').ok_or("a text that does not end")?;
                part.text.extend_from_slice(&rest.as_bytes()[1..1 + end]);
                *place += rest[1..1 + end].matches('\n').count();
                end + 2
            }
            _ => {
                let end = rest.find([' ', '\t', '\n']).unwrap_or(rest.len());
                match &rest[..end] {
                    "=" => right = Some(Part::default()),
                    word if first == ':' => part.text.extend(hex(&word[1..])?),
                    word => part.words.push(word.into()),
                }
                end
            }
        };
        *rest = &rest[end..];
    }
    let last = rest.is_empty();
    *rest = rest.strip_prefix('\n').unwrap_or(rest);
    *place += 1;
    let empty = left == Part::default() && right.is_none();
    Ok((!last || !empty).then_some(Line { place: start, left, right }))
}

/// The lines of a script, without those that are empty.
pub fn lines(script: &str) -> Result<Vec<Line>, String> {
    let (mut rest, mut place, mut all) = (script, 1, vec![]);
    loop {
        let start = place;
        match line(&mut rest, &mut place).map_err(|why| format!("line {start}: {why}"))? {
            None => return Ok(all),
            Some(line) if line.left == Part::default() => {}
            Some(line) => all.push(line),
        }
    }
}

#[cfg(test)]
mod tests {
    use super::*;

    fn part(words: &[&str], text: &[u8]) -> Part {
        Part { words: words.iter().map(|w| w.to_string()).collect(), text: text.to_vec() }
    }

    #[test]
    fn words_texts_answers_and_comments() {
        let script =
            "# a note\nlend 0x10 26 4\nlookup 0 \"a # = b\" = 17  # rules: why\n\npatch 1 :00ff\n";
        let all = lines(script).unwrap();
        assert_eq!(all.len(), 3);
        assert_eq!(all[0].left, part(&["lend", "0x10", "26", "4"], b""));
        assert_eq!(all[0].left.numbers(1).unwrap(), [16, 26, 4]);
        assert_eq!(
            all[1],
            Line {
                place: 3,
                left: part(&["lookup", "0"], b"a # = b"),
                right: Some(part(&["17"], b""))
            }
        );
        assert_eq!(all[2], Line { place: 5, left: part(&["patch", "1"], &[0, 255]), right: None });
    }

    #[test]
    fn a_text_over_several_lines() {
        let all = lines("list 8 = 0 4 \"a\nb\n\"\nrewrite = 9").unwrap();
        assert_eq!(all[0].right, Some(part(&["0", "4"], b"a\nb\n")));
        assert_eq!((all[1].place, all[1].left.words[0].as_str()), (4, "rewrite"));
    }

    #[test]
    fn what_cannot_be_read_is_told_with_its_line() {
        assert_eq!(lines("save\npatch 0 :0").unwrap_err(), "line 2: `:0` are no bytes in base 16");
        assert_eq!(lines("list 1 = 0 \"").unwrap_err(), "line 1: a text that does not end");
        assert!(part(&["x", "0xg"], b"").numbers(1).is_err());
        assert!(part(&["x", "1:2:"], b"").numbers(1).is_err());
        assert!(part(&["x", "1,"], b"").list(1).is_err());
    }

    #[test]
    fn numbers_of_teams() {
        let line = part(&["x", "5", "1:2:0x10:4"], b"");
        assert_eq!(line.numbers(1).unwrap(), [5, 1, 2, 16, 4]);
        let line = part(&["x", "7,0x8", "-"], b"");
        assert_eq!([1, 2, 3].map(|at| line.list(at).unwrap()), [vec![7, 8], vec![], vec![]]);
    }
}
