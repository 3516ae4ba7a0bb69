//! Values that stay the same over neighbouring columns, kept as spans.

/// A value that holds in the columns `from` to `to`, the latter excluded.
#[derive(Clone, Copy, Debug, PartialEq, Eq)]
pub struct Span<T> {
    pub value: T,
    pub from: usize,
    pub to: usize,
}

/// A value for each column, equal neighbours merged.
#[derive(Clone, Debug)]
pub struct Track<T> {
    spans: Vec<Span<T>>,
}

impl<T> Default for Track<T> {
    fn default() -> Track<T> {
        Track { spans: Vec::new() }
    }
}

impl<T: Copy + PartialEq> Track<T> {
    /// Adds the value of the next column.
    pub fn push(&mut self, value: T) {
        let from = self.spans.last().map_or(0, |span| span.to);
        match self.spans.last_mut() {
            Some(span) if span.value == value => span.to += 1,
            _ => self.spans.push(Span {
                value,
                from,
                to: from + 1,
            }),
        }
    }

    pub fn spans(&self) -> &[Span<T>] {
        &self.spans
    }

    /// The value of a column.
    pub fn at(&self, column: usize) -> Option<T> {
        let index = self.spans.partition_point(|span| span.to <= column);
        self.spans.get(index).map(|span| span.value)
    }
}

#[cfg(test)]
mod tests {
    use super::*;

    #[test]
    fn equal_neighbours_are_one_span() {
        let mut track = Track::default();
        let values = [7, 7, 7, 1, 7, 7];
        values.iter().for_each(|&value| track.push(value));
        let spans: Vec<_> = track
            .spans()
            .iter()
            .map(|span| (span.value, span.from, span.to))
            .collect();
        assert_eq!(spans, [(7, 0, 3), (1, 3, 4), (7, 4, 6)]);
        let read: Vec<_> = (0..7).map(|column| track.at(column)).collect();
        assert_eq!(&read[..6], values.map(Some));
        assert_eq!(read[6], None);
    }
}
