//! The lines of a script: which are notes, which are moves, and what is before
//! a line.

/// Notes that stand together, and how many moves the script has before them.
#[derive(Clone, Debug, PartialEq, Eq)]
pub struct Notes {
    pub moves_before: usize,
    pub texts: Vec<String>,
}

/// The script before a line, which counts from 1.
pub fn before(script: &[u8], line: usize) -> &[u8] {
    let bytes = lines(script).take(line - 1).map(<[u8]>::len).sum();
    &script[..bytes]
}

/// A line's text without its line feed, bytes that cannot be printed as `?`.
/// Empty for a line that there is not.
pub fn text(script: &[u8], line: usize) -> String {
    let bytes = lines(script).nth(line - 1).unwrap_or_default();
    let bytes = bytes.strip_suffix(b"\n").unwrap_or(bytes);
    bytes.iter().map(|&byte| printable(byte)).collect()
}

/// The numbers of the lines that are moves, in a script whose lines are all
/// accepted: every line after the first that is no note.
pub fn of_moves(script: &[u8]) -> Vec<usize> {
    let moves = lines(script).enumerate().skip(1);
    moves
        .filter(|(_, line)| note(line).is_none())
        .map(|(index, _)| index + 1)
        .collect()
}

/// The notes of such a script that say something, those with no move between
/// them together.
pub fn notes(script: &[u8]) -> Vec<Notes> {
    let mut groups: Vec<Notes> = Vec::new();
    let mut moves_before = 0;
    for line in lines(script).skip(1) {
        match note(line) {
            None => moves_before += 1,
            Some(text) if text.trim().is_empty() => {}
            Some(text) => add(&mut groups, moves_before, text),
        }
    }
    groups
}

fn add(groups: &mut Vec<Notes>, moves_before: usize, text: String) {
    match groups.last_mut() {
        Some(last) if last.moves_before == moves_before => last.texts.push(text),
        _ => groups.push(Notes {
            moves_before,
            texts: vec![text],
        }),
    }
}

fn lines(script: &[u8]) -> impl Iterator<Item = &[u8]> {
    script.split_inclusive(|&byte| byte == b'\n')
}

/// The text of a line that is a note.
fn note(line: &[u8]) -> Option<String> {
    let text = line.strip_prefix(b"(note ")?.strip_suffix(b")\n")?;
    Some(text.iter().map(|&byte| printable(byte)).collect())
}

fn printable(byte: u8) -> char {
    match byte {
        32..=126 => char::from(byte),
        _ => '?',
    }
}

#[cfg(test)]
mod tests {
    use super::*;

    const SCRIPT: &[u8] =
        b"(threads 2)\n(note a)\n(note b)\n(0 (go))\n(note )\n(1 (go))\n(note c)\n";

    #[test]
    fn notes_are_grouped_and_moves_counted() {
        assert_eq!(of_moves(SCRIPT), [4, 6]);
        let groups: Vec<_> = notes(SCRIPT)
            .into_iter()
            .map(|notes| (notes.moves_before, notes.texts.join("|")))
            .collect();
        assert_eq!(groups, [(0, "a|b".to_string()), (2, "c".to_string())]);
    }

    #[test]
    fn the_script_before_a_line() {
        assert_eq!(before(SCRIPT, 1), b"");
        assert_eq!(before(SCRIPT, 2), b"(threads 2)\n");
        assert_eq!(before(SCRIPT, 8), SCRIPT);
        assert_eq!(text(SCRIPT, 4), "(0 (go))");
        assert_eq!(text(b"(threads\t1)", 1), "(threads?1)");
        assert_eq!(text(b"", 1), "");
    }
}
