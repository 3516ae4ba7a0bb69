//! The rows: each thread's nodes and flags, and the marks of its moves.

use wospinzo::Node;

use crate::layout::{Layout, Sizes};
use crate::palette::{self, move_words, NodeStyle};
use crate::recording::{Recording, Row, Step};
use crate::spans::Track;
use crate::svg::{escape, width, Anchor, Style, Svg, PLAIN, SMALL};

pub fn draw(svg: &mut Svg, layout: &Layout, recording: &Recording) {
    let step = Sizes::step(layout.sizes.row, 12);
    svg.push(r#"<g id="threads">"#);
    for (thread, row) in recording.rows.iter().enumerate() {
        svg.push(&format!(r#"<g id="thread-{thread}" class="row">"#));
        if thread % step == 0 {
            label(svg, layout, thread);
        }
        cells(svg, layout, thread, row);
        flags(svg, layout, thread, row);
        svg.push("</g>");
    }
    svg.push("</g>");
    svg.push(r#"<g id="moves">"#);
    for (column, step) in recording.steps.iter().enumerate() {
        mark(svg, layout, column, step, &recording.rows[step.thread]);
    }
    svg.push("</g>");
}

fn label(svg: &mut Svg, layout: &Layout, thread: usize) {
    let size = layout.sizes.row.clamp(10, 12);
    let y = layout.y(thread) + layout.sizes.cell() / 2 + size / 3 + 1;
    let style = Style {
        size,
        anchor: Anchor::End,
        ..PLAIN
    };
    svg.text((layout.label(), y), style, &format!("thread {thread}"));
}

/// The nodes, one rectangle for neighbours that are the same.
fn cells(svg: &mut Svg, layout: &Layout, thread: usize, row: &Row) {
    let y = layout.y(thread);
    for span in row.nodes.spans() {
        let style = palette::node(span.value);
        let (from, to) = (layout.x(span.from), layout.x(span.to));
        let size = (to - from, layout.sizes.cell());
        svg.push(&cell((from, y), size, span.value, layout.sizes));
        if layout.sizes.names_nodes() {
            name(svg, (from, y + size.1 - 7), size.0, style);
        }
    }
}

/// A cell's rectangle, with a line around it where it is large enough.
fn cell((x, y): (i32, i32), (width, height): (i32, i32), node: Node, sizes: Sizes) -> String {
    let fill = palette::node(node).fill;
    let edge = match (sizes.has_dots(), node) {
        (true, Node::Free) => format!(r#" stroke="{}""#, palette::EDGE),
        (true, _) => r##" stroke="#ffffff""##.to_string(),
        (false, _) => String::new(),
    };
    format!(
        r#"<rect class="cell" x="{x}" y="{y}" width="{width}" height="{height}" fill="{fill}"{edge}/>"#
    )
}

/// The node's name, in its short form where there is no room, or not at all.
fn name(svg: &mut Svg, (x, y): (i32, i32), room: i32, node: &NodeStyle) {
    let names = [node.name, node.short];
    let fitting = names
        .into_iter()
        .find(|name| width(name, SMALL) + 4 <= room);
    let Some(name) = fitting else { return };
    let style = Style {
        size: SMALL,
        fill: node.ink,
        ..PLAIN
    };
    svg.text((x + 3, y), style, name);
}

fn flags(svg: &mut Svg, layout: &Layout, thread: usize, row: &Row) {
    let (y, sizes) = (layout.y(thread), layout.sizes);
    if sizes.shows_busy() {
        let style = ("busy", palette::BUSY);
        flag(svg, layout, y + sizes.busy_top(), &row.busy, style);
    }
    let style = ("forbidden", palette::FORBIDDEN);
    flag(
        svg,
        layout,
        y + sizes.forbidden_top(),
        &row.forbidden,
        style,
    );
}

/// A bar wherever the flag is 1, with a class and a colour.
fn flag(svg: &mut Svg, layout: &Layout, y: i32, track: &Track<bool>, style: (&str, &str)) {
    let (class, fill) = style;
    let height = layout.sizes.flag();
    for span in track.spans().iter().filter(|span| span.value) {
        let (x, width) = (layout.x(span.from), layout.x(span.to) - layout.x(span.from));
        svg.push(&format!(
            r#"<rect class="{class}" x="{x}" y="{y}" width="{width}" height="{height}" fill="{fill}"/>"#
        ));
    }
}

/// The mark of a move in the mover's cell: a dot, a ring where it was a retry, or
/// a diamond where it showed an event. In small cells it is a bar.
fn mark(svg: &mut Svg, layout: &Layout, column: usize, step: &Step, row: &Row) {
    let node = row.nodes.at(column).unwrap_or(Node::Free);
    let y = layout.y(step.thread) + mark_middle(layout.sizes);
    let ink = palette::node(node).ink;
    let paint = match (layout.sizes.has_dots(), step.retry) {
        (true, true) => hollow(ink),
        _ => format!(r#"fill="{ink}""#),
    };
    let shape = match (layout.sizes.has_dots(), step.event) {
        (true, Some(_)) => diamond((layout.middle(column), y)),
        (true, None) => dot((layout.middle(column), y)),
        (false, _) => bar((layout.middle(column), y), layout.sizes),
    };
    let element = shape.split(' ').next().unwrap_or_default();
    svg.push(&format!(
        r#"<{shape} id="move-{}" class="move" {paint}><title>{}</title></{element}>"#,
        column + 1,
        escape(&words(column, step))
    ));
}

/// How far below a cell's top the middle of a mark is: above the node's name,
/// where there is one.
fn mark_middle(sizes: Sizes) -> i32 {
    match sizes.names_nodes() {
        true => 8,
        false => sizes.cell() / 2,
    }
}

/// A bar around a point, without its brackets.
fn bar((x, y): (i32, i32), sizes: Sizes) -> String {
    let height = (sizes.cell() * 2 / 3).clamp(1, 12);
    let width = (sizes.column - 1).clamp(1, 6);
    let (x, y) = (x - width / 2, y - height / 2);
    format!(r#"rect x="{x}" y="{y}" width="{width}" height="{height}""#)
}

/// A dot around a point, without its brackets.
pub fn dot((x, y): (i32, i32)) -> String {
    format!(r#"circle cx="{x}" cy="{y}" r="3""#)
}

/// What makes a ring of a dot.
pub fn hollow(ink: &str) -> String {
    format!(r#"fill="none" stroke="{ink}" stroke-width="1.5""#)
}

/// A diamond around a point, without its brackets.
pub fn diamond((x, y): (i32, i32)) -> String {
    format!(r#"path d="M{} {y}l6 -6l6 6l-6 6z""#, x - 6)
}

/// What a move's mark says where it is pointed at.
fn words(column: usize, step: &Step) -> String {
    let shown = match (step.event, step.retry) {
        (Some(event), _) => format!(", {event}"),
        (None, true) => ", a retry".to_string(),
        (None, false) => String::new(),
    };
    format!(
        "move {}, line {}: thread {} {}{shown}",
        column + 1,
        step.line,
        step.thread,
        move_words(step.mov)
    )
}
