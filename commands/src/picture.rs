//! The picture of a run, as SVG.

use crate::captions::{count, NUMBER_ROOM};
use crate::lanes;
use crate::layout::{event_words, Layout, LINE_HEIGHT, MARGIN};
use crate::legend;
use crate::palette;
use crate::recording::Recording;
use crate::rows;
use crate::stop::Stop;
use crate::svg::{escape, Style, Svg, PLAIN, SIZE};

/// Events that the description names, at most.
const DESCRIBED: usize = 60;

/// Draws a run: the same recording always gives the same bytes.
pub fn draw(recording: &Recording) -> String {
    let layout = Layout::new(recording);
    let mut svg = Svg::default();
    head(&mut svg, &layout, recording);
    lanes::draw(&mut svg, &layout, recording);
    rows::draw(&mut svg, &layout, recording);
    match &recording.stop {
        Some(stop) => stopped(&mut svg, &layout, stop),
        None if recording.steps.is_empty() => no_moves(&mut svg, &layout),
        None => {}
    }
    below(&mut svg, &layout);
    legend::draw(&mut svg, &layout, recording.stop.is_some());
    left_out(&mut svg, &layout);
    svg.push("</svg>");
    svg.finish()
}

fn head(svg: &mut Svg, layout: &Layout, recording: &Recording) {
    let (width, height) = (layout.width, layout.height);
    svg.push(&format!(
        r#"<svg xmlns="http://www.w3.org/2000/svg" version="1.1" width="{width}" height="{height}" viewBox="0 0 {width} {height}" font-family="sans-serif" font-size="{SIZE}">"#
    ));
    let title = &layout.captions.title;
    svg.push(&format!("<title>{}</title>", escape(title)));
    svg.push(&format!("<desc>{}</desc>", escape(&description(recording))));
    svg.rect((0, 0), (width, height), "#ffffff");
    let style = Style {
        size: 16,
        bold: true,
        ..PLAIN
    };
    svg.text((MARGIN, MARGIN + 14), style, title);
    for (index, line) in layout.captions.subtitle.iter().enumerate() {
        let y = MARGIN + 34 + LINE_HEIGHT * index as i32;
        svg.text((MARGIN, y), PLAIN, line);
    }
}

/// The run in words, for those who do not see the picture.
fn description(recording: &Recording) -> String {
    let mut words = "A row for each thread and a column for each move. A cell has the colour of \
                     the thread's node after the move."
        .to_string();
    let events = recording.events().count();
    if events <= DESCRIBED {
        for (column, step, event) in recording.events() {
            let shown = event_words(step.thread, &event.to_string());
            words.push_str(&format!(" Move {}, thread {shown}.", column + 1));
        }
    } else {
        words.push_str(&format!(" {} are shown.", count(events, "event")));
    }
    if let Some(stop) = &recording.stop {
        words.push(' ');
        words.push_str(&stop.words());
    }
    words
}

/// What is said in the place of the columns where there are none.
fn no_moves(svg: &mut Svg, layout: &Layout) {
    let style = Style {
        fill: palette::PALE,
        ..PLAIN
    };
    let at = (layout.end(), layout.numbers + 13);
    svg.text(at, style, "no moves were made");
}

/// The line after which nothing was run, its refusal, and a cross: in the row of
/// the thread that asked, or above the rows where the line is no move.
fn stopped(svg: &mut Svg, layout: &Layout, stop: &Stop) {
    let x = layout.end() + 12;
    svg.push(r#"<g id="stop" class="refused">"#);
    svg.push(&format!(
        r#"<path d="M{x} {}V{}" stroke="{}" stroke-width="2" stroke-dasharray="6 3" fill="none"/>"#,
        layout.numbers,
        layout.events,
        palette::STOP
    ));
    let middle = match stop.thread {
        Some(thread) => layout.y(thread) + layout.sizes.cell() / 2,
        None => layout.numbers + 16,
    };
    legend::cross(svg, (x, middle));
    let style = Style {
        fill: palette::STOP,
        bold: true,
        ..PLAIN
    };
    let number = format!("refused {}", stop.refusal as u8);
    svg.text((x + 10, middle - 2), style, &number);
    svg.text((x + 10, middle + 12), style, &format!("line {}", stop.line));
    svg.push("</g>");
}

/// The stop and the notes in words.
fn below(svg: &mut Svg, layout: &Layout) {
    let mut y = layout.words + 12;
    let style = Style {
        fill: palette::STOP,
        bold: true,
        ..PLAIN
    };
    for line in &layout.captions.stop {
        svg.text((MARGIN, y), style, line);
        y += LINE_HEIGHT;
    }
    for (index, notes) in layout.captions.notes.iter().enumerate() {
        lanes::number(svg, (MARGIN + 8, y - 4), index + 1);
        for line in &notes.lines {
            svg.text((MARGIN + NUMBER_ROOM, y), PLAIN, line);
            y += LINE_HEIGHT;
        }
    }
}

fn left_out(svg: &mut Svg, layout: &Layout) {
    let lines = layout.captions.left_out.len() as i32;
    let style = Style {
        fill: palette::PALE,
        ..PLAIN
    };
    for (index, line) in layout.captions.left_out.iter().enumerate() {
        let y = layout.height - LINE_HEIGHT * (lines - index as i32) + 6;
        svg.text((MARGIN, y), style, line);
    }
}
