//! Programs for the newlines at the end of embedded commands: which of them, and the places in which
//! the values are used.

use super::endings::{Stream, LONGEST};
use super::maker::Maker;
use super::{one_of, Family};
use crate::random::Random;

/// What they are aimed at, with weights.
const AIMS: [(usize, Family); 8] = [
    (70, Maker::cut_anywhere),
    (35, Maker::cut_when_full),
    (30, Maker::cut_of_any_length),
    (30, Maker::cut_codes),
    (25, Maker::cut_sides),
    (20, Maker::cut_fields),
    (25, Maker::cut_within),
    (25, Maker::kept_newlines),
];

impl Maker {
    pub fn newlines(&mut self, random: &mut Random) -> u16 {
        // Newlines that are written one by one take three steps each.
        self.budget = random.pick(&[400, 6_000, 6_000, 6_000]);
        one_of(&AIMS, random)(self)
    }

    /// Few values, each of any stream and in any place.
    pub fn cut_anywhere(&mut self) -> u16 {
        let mut parts = Vec::new();
        for _ in 0..self.random.pick(&[1, 1, 1, 2, 3]) {
            if self.random.chance(200) {
                // The stream outside ends in newlines as well, and keeps them.
                parts.push(self.echo_text(b"out\n\n"));
            }
            let string = self.any_value();
            parts.push(self.shown_use(string));
        }
        if self.random.chance(200) {
            // What the values left of the input.
            parts.push(self.bare("cat"));
        }
        let all = self.sequence(&parts);
        if self.random.chance(300) {
            return self.wrapped(all);
        }
        all
    }

    /// A value out of as many bytes as a stream may have, or one more.
    pub fn cut_when_full(&mut self) -> u16 {
        let stream = self.nearly_full_stream();
        let string = self.value_of(&stream);
        let used = self.shown_use(string);
        if self.random.chance(300) {
            let again = self.assign("y", string);
            return self.sequence(&[used, again]);
        }
        used
    }

    /// Several values, so that every number of newlines comes up, and of other bytes ahead of them.
    pub fn cut_of_any_length(&mut self) -> u16 {
        self.budget = 40_000;
        let mut parts = Vec::new();
        for number in 0..self.random.between(3, 8) {
            let longest = self.random.pick(&[4, 63, 63]);
            let length = self.random.between(0, longest);
            let newlines = self.random.between(0, LONGEST - length);
            let kept = self.kept_bytes(length);
            let writer = self.writing(&Stream { kept, newlines });
            let value = self.embedded(writer);
            parts.push(self.assign(&format!("v{number}"), value));
        }
        self.sequence(&parts)
    }

    /// Values and texts joined to about the longest string. Each value is cut by itself, a text is not.
    pub fn cut_sides(&mut self) -> u16 {
        let mut left = self.random.pick(&[1, 4, 20, 62, 63, 63, 63, 64, 64, 64, 65]);
        let mut parts = Vec::new();
        while left > 0 {
            let most = left.min(63);
            let length = self.random.pick(&[1, most / 2 + 1, most, most]).min(most);
            left -= length;
            let mut bytes = self.kept_bytes(length);
            if self.random.chance(400) {
                if self.random.chance(500) {
                    bytes[length - 1] = b'\n';
                }
                parts.push(self.text(&bytes));
            } else {
                let newlines = self.random.pick(&[0, 1, 1, 2, 70]);
                parts.push(self.value_of(&Stream { kept: bytes, newlines }));
            }
            if self.random.chance(300) {
                let newlines = self.random.pick(&[0, 1, 2, 64]);
                parts.push(self.value_of(&Stream { kept: Vec::new(), newlines }));
            }
        }
        let string = self.joined(&parts);
        self.shown_use(string)
    }

    /// Values and texts in one list.
    pub fn cut_fields(&mut self) -> u16 {
        let mut list = self.empty();
        for _ in 0..self.random.pick(&[1, 2, 3, 3, 5, 9, 16, 17]) {
            let stream = self.short_stream();
            let string = match self.random.below(4) {
                0 => self.text(&stream.bytes()),
                _ => self.value_of(&stream),
            };
            let kind = self.random.pick(&[7, 7, 7, 8]);
            list = self.sheet.put(kind, &[string, list]);
        }
        self.shown_list(list)
    }

    /// Embedded commands inside one another, with newlines written at every level.
    pub fn cut_within(&mut self) -> u16 {
        let stream = if self.random.chance(700) { self.short_stream() } else { self.any_stream() };
        let mut string = self.value_of(&stream);
        for _ in 1..self.random.pick(&[2, 2, 3, 4, 6, 9, 10, 10, 11]) {
            string = self.one_level_out(string);
        }
        self.shown_use(string)
    }

    fn one_level_out(&mut self, inner: u16) -> u16 {
        let mut parts = Vec::new();
        if self.random.chance(250) {
            let before = self.random.pick(&[&b"o\n"[..], b"", b"\n"]);
            parts.push(self.echo_text(before));
        }
        let joined = if self.random.chance(200) { self.with_text(inner) } else { inner };
        parts.push(match self.random.below(14) {
            0..=2 => {
                let assign = self.assign("y", joined);
                let variable = self.variable("y");
                let echo = self.echo(&[variable]);
                self.sequence(&[assign, echo])
            }
            // Written for nothing: the stream is what stands before it.
            3 => self.assign("y", joined),
            _ => self.echo(&[joined]),
        });
        if self.random.chance(400) {
            let count = self.random.between(1, 4);
            parts.push(self.only_newlines(count));
        }
        let command = self.sequence(&parts);
        self.embedded(command)
    }
}
