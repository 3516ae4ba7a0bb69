//! The legend: the nodes' colours and the marks.

use wospinzo::Node;

use crate::layout::{Layout, LINE_HEIGHT, MARGIN};
use crate::palette;
use crate::rows::{diamond, dot, hollow};
use crate::svg::{Style, Svg, PLAIN};

/// Where the three columns begin, and where their names and meanings do.
const WRITER: i32 = MARGIN + 244;
const MARKS: i32 = WRITER + 316;
const NAME: i32 = 36;
const SWATCH: (i32, i32) = (26, 12);

const BOLD: Style = Style {
    bold: true,
    ..PLAIN
};

pub fn draw(svg: &mut Svg, layout: &Layout, refused: bool) {
    svg.push(r#"<g id="legend">"#);
    rule(svg, layout);
    let top = layout.legend + LINE_HEIGHT + 4;
    let reader = [Node::Free, Node::Es, Node::Loe, Node::Shared, Node::Ls];
    let writer = [
        Node::Ee,
        Node::Saf,
        Node::Los,
        Node::Exclusive,
        Node::Le,
        Node::Oe,
    ];
    nodes(
        svg,
        (MARGIN, top),
        "Free, and the reader's nodes",
        &reader,
        56,
    );
    nodes(svg, (WRITER, top), "The writer's nodes", &writer, 76);
    marks(svg, (MARKS, top), layout, refused);
    svg.push("</g>");
}

fn rule(svg: &mut Svg, layout: &Layout) {
    svg.push(&format!(
        r#"<path d="M{MARGIN} {}H{}" stroke="{}" shape-rendering="crispEdges"/>"#,
        layout.legend,
        layout.width - MARGIN,
        palette::EDGE
    ));
}

fn nodes(svg: &mut Svg, (x, y): (i32, i32), title: &str, nodes: &[Node], meaning: i32) {
    svg.text((x, y), BOLD, title);
    for (index, node) in nodes.iter().enumerate() {
        let y = y + LINE_HEIGHT * (index as i32 + 1);
        let style = palette::node(*node);
        svg.push(&format!(
            r#"<rect x="{x}" y="{}" width="{}" height="{}" fill="{}" stroke="{}"/>"#,
            y - 10,
            SWATCH.0,
            SWATCH.1,
            style.fill,
            palette::EDGE
        ));
        svg.text((x + NAME, y), BOLD, style.name);
        svg.text((x + NAME + meaning, y), PLAIN, style.meaning);
    }
}

fn marks(svg: &mut Svg, (x, y): (i32, i32), layout: &Layout, refused: bool) {
    svg.text((x, y), BOLD, "Marks");
    let middle = x + SWATCH.0 / 2;
    let line = |index: i32| y + LINE_HEIGHT * index;
    match layout.sizes.has_dots() {
        true => dots(svg, (middle, line(1) - 4)),
        false => bars(svg, (middle, line(1) - 4)),
    }
    svg.rect((x, line(3) - 6), (SWATCH.0, 4), palette::BUSY);
    svg.rect((x, line(4) - 6), (SWATCH.0, 4), palette::FORBIDDEN);
    svg.rect((x, line(5) - 10), SWATCH, palette::MUTEX);
    let mut texts = vec![
        "the mover; ring: a retry",
        "its move showed an event",
        "its busy flag is 1",
        "its forbidden flag is 1",
        "the mutex is held",
    ];
    if !layout.sizes.has_dots() {
        texts[0] = "the thread that moved";
        texts[1] = "an event, of shared or exclusive";
    }
    if refused {
        cross(svg, (middle, line(6) - 4));
        texts.push("the refused line");
    }
    for (index, text) in texts.into_iter().enumerate() {
        svg.text((x + NAME, line(index as i32 + 1)), PLAIN, text);
    }
}

/// The marks of moves in large cells: a dot and a ring, and a diamond below them.
fn dots(svg: &mut Svg, (x, y): (i32, i32)) {
    for shape in [dot((x - 6, y)), diamond((x, y + LINE_HEIGHT))] {
        svg.push(&format!(r#"<{shape} fill="{}"/>"#, palette::INK));
    }
    let ring = dot((x + 6, y));
    svg.push(&format!("<{ring} {}/>", hollow(palette::INK)));
}

/// The marks of moves and events in small ones.
fn bars(svg: &mut Svg, (x, y): (i32, i32)) {
    svg.rect((x - 1, y - 5), (2, 10), palette::INK);
    let y = y + LINE_HEIGHT - 6;
    svg.rect((x - 6, y), (3, 12), palette::node(Node::Shared).fill);
    svg.rect((x + 3, y), (3, 12), palette::node(Node::Exclusive).fill);
}

/// The mark of a refused line.
pub fn cross(svg: &mut Svg, (x, y): (i32, i32)) {
    svg.push(&format!(
        r#"<path d="M{} {}l10 10m0 -10l-10 10" stroke="{}" stroke-width="3" fill="none"/>"#,
        x - 5,
        y - 5,
        palette::STOP
    ));
}
