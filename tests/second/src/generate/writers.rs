//! Instructions that write a given stream: by the input, by echoes with and without fields, by loops.

use super::endings::{Stream, LONGEST};
use super::maker::Maker;

/// The longest text of a sheet.
const LONGEST_TEXT: usize = 63;
/// Bytes with more newlines among them go into one echo, or the sheet has no room.
const MOST_LINES: usize = 8;

impl Maker {
    /// Only the input can end in another byte than a newline.
    pub fn writing(&mut self, stream: &Stream) -> u16 {
        let bytes = stream.bytes();
        if !self.input.is_empty() || bytes.is_empty() {
            return self.echoing(stream);
        }
        let whole = if stream.newlines == 0 { 850 } else { 300 };
        if bytes.len() <= LONGEST && self.random.chance(whole) {
            self.input = bytes;
            return self.bare("cat");
        }
        if self.random.chance(150) {
            let anywhere = self.random.below(bytes.len());
            let begun = self.random.pick(&[anywhere, bytes.len() / 2, bytes.len() - 1]).min(LONGEST);
            self.input = bytes[..begun].to_vec();
            let parts = [self.bare("cat"), self.echoing(&Stream::of(&bytes[begun..]))];
            return self.sequence(&parts);
        }
        self.echoing(stream)
    }

    /// Echoes alone. They leave a newline behind what stays, whether the stream has one or not.
    fn echoing(&mut self, stream: &Stream) -> u16 {
        let mut parts = Vec::new();
        let mut newlines = stream.newlines;
        if !stream.kept.is_empty() {
            let mut lines: Vec<&[u8]> = stream.kept.split(|&byte| byte == b'\n').collect();
            // A newline among the bytes is an echo's own or stands in a field.
            if lines.len() > MOST_LINES || self.random.chance(500) {
                lines = vec![&stream.kept];
            }
            let (last, others) = lines.split_last().expect("a split has a part");
            parts.extend(others.iter().map(|line| self.line(line)));
            let most = newlines.saturating_sub(1).min(LONGEST_TEXT.saturating_sub(last.len()));
            let inside = if self.random.chance(400) { self.random.between(0, most) } else { 0 };
            parts.push(self.line(&[last, &vec![b'\n'; inside][..]].concat()));
            newlines = newlines.saturating_sub(inside + 1);
        }
        if newlines > 0 {
            parts.push(self.only_newlines(newlines));
        }
        if parts.is_empty() {
            parts.push(self.bare("true"));
        }
        self.sequence(&parts)
    }

    /// An echo of these bytes. Where they take several fields, spaces come between.
    fn line(&mut self, bytes: &[u8]) -> u16 {
        let (first, others) = bytes.split_at(bytes.len() % (LONGEST_TEXT + 1));
        let mut strings = vec![self.text(first)];
        for field in others.chunks(LONGEST_TEXT + 1) {
            strings.push(self.text(&field[1..]));
        }
        self.echo(&strings)
    }

    /// So many newlines and nothing else.
    pub fn only_newlines(&mut self, count: usize) -> u16 {
        match self.random.below(5) {
            0 => self.empty_echoes(count),
            1 if count <= 16 => {
                let word = self.text(b"w");
                let list = self.fields(&vec![word; count]);
                let body = self.bare("echo");
                self.for_each("y", list, body)
            }
            2 if count > 1 => {
                let first = self.random.between(1, count - 1);
                let parts = [self.empty_echoes(first), self.newlines_in_fields(count - first)];
                self.sequence(&parts)
            }
            _ => self.newlines_in_fields(count),
        }
    }

    /// An echo without fields for each newline, out of few records that are used twice.
    fn empty_echoes(&mut self, count: usize) -> u16 {
        match count {
            1 => self.bare("echo"),
            _ if count.is_multiple_of(2) => {
                let half = self.empty_echoes(count / 2);
                self.sheet.put(18, &[half, half])
            }
            _ => {
                let parts = [self.bare("echo"), self.empty_echoes(count - 1)];
                self.sequence(&parts)
            }
        }
    }

    /// Echoes of newlines.
    fn newlines_in_fields(&mut self, count: usize) -> u16 {
        let most = LONGEST_TEXT + 1;
        let full = self.echo_text(&[b'\n'; LONGEST_TEXT]);
        let mut parts = vec![full; count / most];
        if !count.is_multiple_of(most) {
            parts.push(self.echo_text(&vec![b'\n'; count % most - 1]));
        }
        self.sequence(&parts)
    }
}
