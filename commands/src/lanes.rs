//! The lanes above and below the rows: notes, moves, mutex and events.

use crate::layout::{event_words, Layout, Sizes};
use crate::palette::{self, move_words};
use crate::recording::Recording;
use crate::svg::{width, Anchor, Style, Svg, PLAIN, SMALL};

const LABEL: Style = Style {
    fill: palette::PALE,
    anchor: Anchor::End,
    ..PLAIN
};
const UPRIGHT: Style = Style {
    size: SMALL,
    upright: true,
    ..PLAIN
};
const CENTRED: Style = Style {
    size: SMALL,
    anchor: Anchor::Middle,
    ..PLAIN
};
/// The height of the strip that shows the mutex.
const STRIP: i32 = 14;

pub fn draw(svg: &mut Svg, layout: &Layout, recording: &Recording) {
    if recording.steps.is_empty() {
        return;
    }
    columns(svg, layout);
    notes(svg, layout);
    moves(svg, layout, recording);
    numbers(svg, layout);
    mutex(svg, layout, recording);
    events(svg, layout, recording);
}

/// Lines between columns, where these are wide enough.
fn columns(svg: &mut Svg, layout: &Layout) {
    if !layout.sizes.names_moves() {
        return;
    }
    let mut path = String::new();
    for column in 0..=layout.sizes.columns as usize {
        path.push_str(&format!(
            "M{} {}V{}",
            layout.x(column),
            layout.names,
            layout.lanes_end()
        ));
    }
    svg.push(&format!(
        r#"<path d="{path}" stroke="{}" fill="none" shape-rendering="crispEdges"/>"#,
        palette::LINE
    ));
}

/// A number at the place of each note, whose text is below.
fn notes(svg: &mut Svg, layout: &Layout) {
    for (index, notes) in layout.captions.notes.iter().enumerate() {
        let (x, y) = (layout.x(notes.moves_before), layout.notes + 10);
        svg.push(&format!(
            r#"<path class="note" d="M{x} {}V{}" stroke="{}" stroke-dasharray="2 3" fill="none"/>"#,
            y + 8,
            layout.lanes_end(),
            palette::PALE
        ));
        number(svg, (x, y), index + 1);
    }
}

/// A number in a circle.
pub fn number(svg: &mut Svg, (x, y): (i32, i32), number: usize) {
    svg.push(&format!(
        r#"<circle cx="{x}" cy="{y}" r="8" fill="white" stroke="{}"/>"#,
        palette::PALE
    ));
    svg.text((x, y + 4), CENTRED, &number.to_string());
}

/// The names of the moves.
fn moves(svg: &mut Svg, layout: &Layout, recording: &Recording) {
    if !layout.sizes.names_moves() {
        return;
    }
    for (column, step) in recording.steps.iter().enumerate() {
        let at = (layout.middle(column) + 4, layout.numbers - 2);
        svg.text(at, UPRIGHT, &move_words(step.mov));
    }
}

/// The numbers of the moves, from 1, as many as there is room for.
fn numbers(svg: &mut Svg, layout: &Layout) {
    let columns = layout.sizes.columns as usize;
    let room = width(&columns.to_string(), SMALL) + 6;
    let step = Sizes::step(layout.sizes.column, room);
    let y = layout.numbers + 13;
    svg.text((layout.label(), y), LABEL, "move");
    let style = Style {
        fill: palette::PALE,
        ..CENTRED
    };
    for number in (1..=columns).filter(|number| *number == 1 || number % step == 0) {
        svg.text((layout.middle(number - 1), y), style, &number.to_string());
    }
}

/// Who holds the mutex.
fn mutex(svg: &mut Svg, layout: &Layout, recording: &Recording) {
    svg.text((layout.label(), layout.mutex + 12), LABEL, "mutex");
    svg.push(r#"<g id="mutex">"#);
    for span in recording.mutex.spans() {
        if let Some(holder) = span.value {
            held(svg, layout, holder, span.from, span.to);
        }
    }
    svg.push("</g>");
}

/// The strip of a thread that holds the mutex, with as much of its name as fits.
fn held(svg: &mut Svg, layout: &Layout, holder: usize, from: usize, to: usize) {
    let (left, right) = (layout.x(from), layout.x(to));
    let top = layout.mutex + 1;
    let name = format!("thread {holder}");
    svg.push(&format!(
        r#"<rect x="{left}" y="{top}" width="{}" height="{STRIP}" fill="{}"><title>{name}, moves {} to {to}</title></rect>"#,
        right - left,
        palette::MUTEX,
        from + 1
    ));
    let style = Style {
        fill: "#ffffff",
        ..CENTRED
    };
    let names = [name, holder.to_string()];
    let fitting = names
        .iter()
        .find(|name| width(name, SMALL) + 4 <= right - left);
    if let Some(name) = fitting {
        svg.text(((left + right) / 2, top + 11), style, name);
    }
}

/// The events, in the colour of their section.
fn events(svg: &mut Svg, layout: &Layout, recording: &Recording) {
    let events = recording.events();
    svg.text((layout.label(), layout.events + 13), LABEL, "events");
    svg.push(r#"<g id="events">"#);
    for (column, step, event) in events {
        let fill = palette::event(event);
        if layout.sizes.names_moves() {
            let style = Style {
                fill,
                anchor: Anchor::End,
                ..UPRIGHT
            };
            let words = event_words(step.thread, &event.to_string());
            svg.text(
                (layout.middle(column) + 4, layout.events + 4),
                style,
                &words,
            );
        } else {
            let corner = (layout.x(column), layout.events + 2);
            svg.rect(corner, (layout.sizes.column.min(3), 12), fill);
        }
    }
    svg.push("</g>");
}
