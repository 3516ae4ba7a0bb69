//! Writing SVG, and how much room a text takes.

use std::fmt::Write;

/// The size of texts, in units of the picture.
pub const SIZE: i32 = 12;
/// The size of node names, and of what stands in the lanes.
pub const SMALL: i32 = 11;

/// Where a text's given point is on it.
#[derive(Clone, Copy, PartialEq, Eq)]
pub enum Anchor {
    Start,
    Middle,
    End,
}

/// How a text is written.
#[derive(Clone, Copy)]
pub struct Style {
    pub size: i32,
    pub fill: &'static str,
    pub bold: bool,
    pub anchor: Anchor,
    /// Whether it is written upwards.
    pub upright: bool,
}

pub const PLAIN: Style = Style {
    size: SIZE,
    fill: "#222222",
    bold: false,
    anchor: Anchor::Start,
    upright: false,
};

/// The elements of a picture, in the order in which they are drawn.
#[derive(Default)]
pub struct Svg {
    out: String,
}

impl Svg {
    pub fn push(&mut self, element: &str) {
        self.out.push_str(element);
        self.out.push('\n');
    }

    pub fn rect(&mut self, (x, y): (i32, i32), (width, height): (i32, i32), fill: &str) {
        self.push(&format!(
            r#"<rect x="{x}" y="{y}" width="{width}" height="{height}" fill="{fill}"/>"#
        ));
    }

    pub fn text(&mut self, (x, y): (i32, i32), style: Style, text: &str) {
        let mut attributes = format!(r#"x="{x}" y="{y}" fill="{}""#, style.fill);
        if style.size != SIZE {
            let _ = write!(attributes, r#" font-size="{}""#, style.size);
        }
        if style.bold {
            attributes.push_str(r#" font-weight="bold""#);
        }
        match style.anchor {
            Anchor::Start => {}
            Anchor::Middle => attributes.push_str(r#" text-anchor="middle""#),
            Anchor::End => attributes.push_str(r#" text-anchor="end""#),
        }
        if style.upright {
            let _ = write!(attributes, r#" transform="rotate(-90 {x} {y})""#);
        }
        self.push(&format!("<text {attributes}>{}</text>", escape(text)));
    }

    pub fn finish(self) -> String {
        self.out
    }
}

/// A text with the characters that XML gives a meaning replaced.
pub fn escape(text: &str) -> String {
    let mut escaped = String::with_capacity(text.len());
    for character in text.chars() {
        match character {
            '&' => escaped.push_str("&amp;"),
            '<' => escaped.push_str("&lt;"),
            '>' => escaped.push_str("&gt;"),
            '"' => escaped.push_str("&quot;"),
            _ => escaped.push(character),
        }
    }
    escaped
}

/// The width of a text at most, in the widest of the usual fonts without serifs.
pub fn width(text: &str, size: i32) -> i32 {
    let thousandths: i32 = text.chars().map(character_width).sum();
    (thousandths * size + 999) / 1000
}

/// Thousandths of the font's size.
fn character_width(character: char) -> i32 {
    match character {
        ' ' | '.' | ',' | '\'' | 'i' | 'l' | 'j' | '|' => 340,
        '(' | ')' | 'f' | 't' | 'r' | '-' | ':' | ';' | '/' => 420,
        'm' | 'w' | 'M' | 'W' | '%' | '@' => 990,
        'E' | 'F' | 'L' | 'P' | 'S' | 'T' => 640,
        'A'..='Z' | '<' | '>' | '=' | '+' | '&' | '#' => 790,
        _ => 640,
    }
}

/// A text as lines of a width, broken between words; what is beyond the last
/// line is replaced by three dots.
pub fn wrap(text: &str, size: i32, room: i32, lines: usize) -> Vec<String> {
    let mut wrapped: Vec<String> = Vec::new();
    for word in text.split_whitespace() {
        match wrapped.last_mut() {
            Some(line) if width(line, size) + width(word, size) + size <= room => {
                line.push(' ');
                line.push_str(word);
            }
            _ => wrapped.push(word.to_string()),
        }
    }
    let cut = wrapped.len() > lines;
    wrapped.truncate(lines);
    if let (true, Some(last)) = (cut, wrapped.last_mut()) {
        last.push_str(" ...");
    }
    for line in &mut wrapped {
        shorten(line, size, room);
    }
    wrapped
}

/// Cuts a text to a width.
fn shorten(line: &mut String, size: i32, room: i32) {
    if width(line, size) <= room {
        return;
    }
    while !line.is_empty() && width(line, size) + width("...", size) > room {
        line.pop();
    }
    line.push_str("...");
}

#[cfg(test)]
mod tests {
    use super::*;

    #[test]
    fn texts_are_escaped() {
        let mut svg = Svg::default();
        svg.text((1, 2), PLAIN, r#"a < b & "c""#);
        let expected = r##"<text x="1" y="2" fill="#222222">a &lt; b &amp; &quot;c&quot;</text>"##;
        assert_eq!(svg.finish().trim_end(), expected);
    }

    #[test]
    fn a_text_is_wrapped_within_its_room() {
        let text = "one two three four five six seven eight nine ten";
        let whole = wrap(text, 12, 120, 9);
        assert_eq!(whole.join(" "), text);
        let cut = wrap(text, 12, 120, 2);
        assert_eq!(cut.len(), 2);
        assert!(cut[1].ends_with("..."), "{}", cut[1]);
        let long = wrap(&"x".repeat(400), 12, 120, 2);
        assert_eq!(long.len(), 1);
        for line in whole.iter().chain(&cut).chain(&long) {
            assert!(width(line, 12) <= 120, "{line}");
        }
        assert!(wrap("", 12, 120, 2).is_empty());
    }
}
