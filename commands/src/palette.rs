//! The names and colours of nodes, events and marks.
//!
//! The reader's side is blue and green, the writer's yellow, orange, red and
//! brown, and the two sections are the darkest of their side. Any two nodes can
//! be told apart also by those who lack one kind of cone.

use wospinzo::{Event, Move, Node};

/// The colour of texts on white.
pub const INK: &str = "#222222";
/// Of what is less important.
pub const PALE: &str = "#666666";
/// Of lines between columns and rows.
pub const LINE: &str = "#dcdcdc";
/// Of the line around cells and swatches of the colour of Free.
pub const EDGE: &str = "#c4c4c4";
pub const BUSY: &str = "#949494";
pub const FORBIDDEN: &str = "#000000";
pub const MUTEX: &str = "#4a4a4a";
/// Of a refused line.
pub const STOP: &str = "#c00018";

/// How a node is shown.
pub struct NodeStyle {
    pub name: &'static str,
    /// The name where there is no room for it.
    pub short: &'static str,
    pub meaning: &'static str,
    pub fill: &'static str,
    /// The colour of marks and names on it.
    pub ink: &'static str,
}

const fn light(name: &'static str, fill: &'static str, meaning: &'static str) -> NodeStyle {
    NodeStyle {
        name,
        short: name,
        meaning,
        fill,
        ink: "#000000",
    }
}

const fn dark(names: [&'static str; 2], fill: &'static str, meaning: &'static str) -> NodeStyle {
    NodeStyle {
        name: names[0],
        short: names[1],
        meaning,
        fill,
        ink: "#ffffff",
    }
}

static NODES: [NodeStyle; 11] = [
    light("Free", "#f7f7f7", "outside the lock"),
    light("ES", "#b3d4fc", "entering shared"),
    light("LOE", "#5b8bdc", "let in to shared"),
    dark(["Shared", "Sh."], "#0d3596", "in the shared section"),
    light("LS", "#5fd9a0", "leaving shared"),
    light("EE", "#f7e07c", "entering, before the mutex"),
    light("SAF", "#eb9a1f", "setting all forbidden flags"),
    light("LOS", "#d2521b", "let in to exclusive"),
    dark(
        ["Exclusive", "Excl."],
        "#860c10",
        "in the exclusive section",
    ),
    light("LE", "#d692bd", "leaving, clearing the flags"),
    dark(["OE", "OE"], "#8f6450", "out of exclusive"),
];

pub fn node(node: Node) -> &'static NodeStyle {
    &NODES[node as usize]
}

/// The colour of an event's name: that of the section it is about.
pub fn event(event: Event) -> &'static str {
    match event as u8 {
        1..=4 => node(Node::Shared).fill,
        _ => node(Node::Exclusive).fill,
    }
}

/// A move as a script writes it, without its brackets.
pub fn move_words(mov: Move) -> String {
    match mov {
        Move::Go => "go".to_string(),
        Move::CallShared => "call shared".to_string(),
        Move::CallExclusive => "call exclusive".to_string(),
        Move::Set(target) => format!("set {target}"),
        Move::Clear(target) => format!("clear {target}"),
        Move::Relent => "relent".to_string(),
        Move::Hold => "hold".to_string(),
        other => format!("move {}", other.numbers().0),
    }
}

#[cfg(test)]
mod tests {
    use super::*;

    /// Red, green and blue of a colour, each proportional to its light.
    fn light_of(colour: &str) -> [f64; 3] {
        [1, 3, 5].map(|at| {
            let byte = u8::from_str_radix(&colour[at..at + 2], 16).unwrap();
            let part = f64::from(byte) / 255.0;
            if part <= 0.04045 {
                part / 12.92
            } else {
                ((part + 0.055) / 1.055).powf(2.4)
            }
        })
    }

    fn times(matrix: [[f64; 3]; 3], light: [f64; 3]) -> [f64; 3] {
        matrix.map(|row| row.iter().zip(light).map(|(a, b)| a * b).sum())
    }

    /// The relative luminance of a colour.
    fn luminance(colour: &str) -> f64 {
        let [red, green, blue] = light_of(colour);
        0.2126 * red + 0.7152 * green + 0.0722 * blue
    }

    #[test]
    fn names_and_marks_can_be_read_on_their_node() {
        for style in &NODES {
            let (one, other) = (luminance(style.fill), luminance(style.ink));
            let contrast = (one.max(other) + 0.05) / (one.min(other) + 0.05);
            assert!(contrast >= 4.5, "{}: {contrast}", style.name);
        }
    }

    /// What is seen of red, green and blue with all cones, and without the first,
    /// second or third kind (Machado, Oliveira and Fernandes 2009).
    const EYES: [[[f64; 3]; 3]; 4] = [
        [[1.0, 0.0, 0.0], [0.0, 1.0, 0.0], [0.0, 0.0, 1.0]],
        [
            [0.152286, 1.052583, -0.204868],
            [0.114503, 0.786281, 0.099216],
            [-0.003882, -0.048116, 1.051998],
        ],
        [
            [0.367322, 0.860646, -0.227968],
            [0.280085, 0.672501, 0.047413],
            [-0.011820, 0.042940, 0.968881],
        ],
        [
            [1.255528, -0.076749, -0.178779],
            [-0.078411, 0.930809, 0.147602],
            [0.004733, 0.691367, 0.303900],
        ],
    ];

    /// The place of a light in CIELAB, where distances are as large as they look.
    fn lab(light: [f64; 3]) -> [f64; 3] {
        let xyz = [
            [0.4124 / 0.95047, 0.3576 / 0.95047, 0.1805 / 0.95047],
            [0.2126, 0.7152, 0.0722],
            [0.0193 / 1.08883, 0.1192 / 1.08883, 0.9505 / 1.08883],
        ];
        let seen = light.map(|part| part.clamp(0.0, 1.0));
        let [x, y, z] = times(xyz, seen).map(|part| match part > 0.008856 {
            true => part.cbrt(),
            false => 7.787 * part + 16.0 / 116.0,
        });
        [116.0 * y - 16.0, 500.0 * (x - y), 200.0 * (y - z)]
    }

    fn distance(one: [f64; 3], other: [f64; 3]) -> f64 {
        let squares = one.iter().zip(other).map(|(a, b)| (a - b) * (a - b));
        squares.sum::<f64>().sqrt()
    }

    /// A difference of 2 is just noticed side by side.
    #[test]
    fn nodes_can_be_told_apart_by_every_eye() {
        for eye in EYES {
            let seen = NODES
                .each_ref()
                .map(|style| lab(times(eye, light_of(style.fill))));
            for (index, &one) in seen.iter().enumerate() {
                for (other, &another) in seen.iter().enumerate().skip(index + 1) {
                    let apart = distance(one, another);
                    let names = (NODES[index].name, NODES[other].name);
                    assert!(apart >= 19.0, "{names:?}: {apart}");
                }
            }
        }
    }
}
