//! Where a byte of a source stands: in which line of the file, and in which column.
//!
//! The lines are the file's own, as an editor counts them. The line that is recorded with an error can
//! be another: see [`Recorded::recorded_line`](crate::Recorded::recorded_line).

/// The lines of a source, and the places in them.
///
/// ```
/// use kettleplume::places::Places;
///
/// let places = Places::new("let a\nflûte 4\n".as_bytes());
/// // The digit: û has two bytes.
/// assert_eq!((places.line(13), places.column(13)), (2, 7));
/// assert_eq!(places.text(2), "flûte 4".as_bytes());
/// ```
#[derive(Debug, Clone)]
pub struct Places<'a> {
    source: &'a [u8],
    /// Where each line starts.
    starts: Vec<usize>,
    /// The column of each byte and of the end.
    columns: Vec<usize>,
}

impl<'a> Places<'a> {
    pub fn new(source: &'a [u8]) -> Places<'a> {
        let ends = source.iter().enumerate().filter(|(_, b)| **b == b'\n');
        Places {
            source,
            starts: [0].into_iter().chain(ends.map(|(at, _)| at + 1)).collect(),
            columns: columns(source),
        }
    }

    pub fn source(&self) -> &'a [u8] {
        self.source
    }

    /// The line, from 1, that a byte stands in. A new line stands at the end of its line. The end of the
    /// source, which every place after it is taken for, is in the last line: that is an empty one if
    /// the last byte is a new line.
    pub fn line(&self, pos: usize) -> usize {
        self.starts.partition_point(|start| *start <= pos)
    }

    /// Which character of its line, from 1, a byte belongs to. A character that is drawn over the one
    /// before it, as some accents are, counts with that one. The end of a line, a carriage return with
    /// it, is one after its last character.
    pub fn column(&self, pos: usize) -> usize {
        self.columns[pos.min(self.source.len())]
    }

    /// Where a line starts.
    pub fn start(&self, line: usize) -> usize {
        self.starts[line - 1]
    }

    /// A line without its end.
    pub fn text(&self, line: usize) -> &'a [u8] {
        let end = self.starts.get(line).map_or(self.source.len(), |s| s - 1);
        let text = &self.source[self.start(line)..end];
        // A carriage return there belongs to the end of the line, also where the source ends.
        text.strip_suffix(b"\r").unwrap_or(text)
    }
}

fn columns(source: &[u8]) -> Vec<usize> {
    let mut columns = Vec::with_capacity(source.len() + 1);
    let mut next = 1;
    while let Some((c, length)) = first_char(&source[columns.len()..]) {
        let column = match is_drawn_over(c) {
            true => (next - 1).max(1),
            false => next,
        };
        let behind = source.get(columns.len() + length);
        columns.resize(columns.len() + length, column);
        next = match (c, behind) {
            ('\n', _) => 1,
            ('\r', None | Some(b'\n')) => column,
            _ => column + 1,
        };
    }
    columns.push(next);
    columns
}

/// The character that bytes begin with and how many of them it is, unless there are none; U+FFFD for
/// bytes that are no character. Only a source that was not read has such bytes.
pub fn first_char(bytes: &[u8]) -> Option<(char, usize)> {
    match bytes {
        [] => None,
        // Most are such, and there may be millions to look at.
        [byte @ 0..=0x7f, ..] => Some((char::from(*byte), 1)),
        [_, rest @ ..] => {
            let length = 1 + rest.iter().take_while(|byte| continues(**byte)).count();
            let text = std::str::from_utf8(&bytes[..length]).ok();
            let char = text.and_then(|text| text.chars().next());
            Some((char.unwrap_or(char::REPLACEMENT_CHARACTER), length))
        }
    }
}

/// Whether a byte belongs to the character of the byte before it.
pub fn continues(byte: u8) -> bool {
    byte & 0xc0 == 0x80
}

/// Whether a character is drawn over the one before it, as an accent that is a character of its own. The
/// standard library tells: it escapes such a character alone, but not after another.
pub fn is_drawn_over(c: char) -> bool {
    !c.is_ascii() && c.escape_debug().count() > 1 && format!("a{c}").escape_debug().eq(['a', c])
}

#[cfg(test)]
mod tests {
    use super::*;

    fn places(source: &[u8]) -> Vec<(usize, usize)> {
        let places = Places::new(source);
        (0..=source.len())
            .map(|at| (places.line(at), places.column(at)))
            .collect()
    }

    #[test]
    fn lines_and_columns() {
        assert_eq!(places(b""), [(1, 1)]);
        assert_eq!(places(b"a\n"), [(1, 1), (1, 2), (2, 1)]);
        let two_byte = [(1, 1), (1, 1), (1, 2), (1, 3), (2, 1), (2, 2)];
        assert_eq!(places("éa\nb".as_bytes()), two_byte);
        let accent = [(1, 1), (1, 1), (1, 1), (1, 2), (1, 3)];
        assert_eq!(places("u\u{302}a".as_bytes()), accent);
        // With nothing before it, it has the first column to itself.
        let alone = [(1, 1), (1, 1), (1, 2), (1, 3)];
        assert_eq!(places("\u{302}a".as_bytes()), alone);
    }

    #[test]
    fn a_carriage_return_belongs_to_the_end_of_its_line() {
        let ends = [(1, 1), (1, 2), (1, 2), (2, 1), (2, 2), (2, 2)];
        assert_eq!(places(b"a\r\nb\r"), ends);
        // One within a line is a character.
        assert_eq!(places(b"\ra"), [(1, 1), (1, 2), (1, 3)]);
    }

    #[test]
    fn a_place_behind_the_end_is_the_end() {
        let places = Places::new(b"a\nb");
        assert_eq!((places.line(9), places.column(9)), (2, 2));
    }

    #[test]
    fn ends_of_lines_are_left_out() {
        let places = Places::new(b"a\r\nb\n\nc\r");
        let lines: Vec<&[u8]> = (1..=4).map(|line| places.text(line)).collect();
        assert_eq!(lines, [&b"a"[..], b"b", b"", b"c"]);
        assert_eq!(Places::new(b"a\n").text(2), b"");
    }

    #[test]
    fn bytes_that_are_no_character_are_one() {
        for bytes in [&b"\xed\xa0\x80"[..], b"\xf4\x90\x80\x80", b"\xff"] {
            assert_eq!(first_char(bytes), Some(('\u{fffd}', bytes.len())));
        }
    }
}
