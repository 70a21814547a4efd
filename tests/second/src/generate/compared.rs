//! Programs in which every byte value comes to every place that is compared: fields and signs of
//! `test`, blanks of a split, and the last byte of a string that just fits or just does not.

use super::maker::Maker;

/// Fields of `test` and what is near them.
const SIGNS: [&[u8]; 9] = [b"=", b"=", b"-n", b"-n", b"==", b"-z", b"!", b"-nn", b" ="];
/// Tests that are true elsewhere, their fields between bars.
const FOREIGN: [&str; 20] = [
    "!|",
    "!|-n|",
    "!|a|=|b",
    "!|-n|a",
    "-z|",
    "a|==|a",
    "a|!=|b",
    "a|-eq|a",
    "1|-le|1",
    "a|-a|a",
    "|-o|a",
    "-e|a",
    "a",
    "-n",
    "=",
    "(|a|)",
    "a|=|a|-a|b",
    "-n|a|b",
    "|=|a",
    "-d|/",
];
/// Blanks and the bytes near them or taken for them elsewhere.
const BLANKS: [u8; 14] = [32, 9, 10, 32, 9, 10, 8, 11, 12, 13, 31, 33, 0, 160];

impl Maker {
    pub fn aimed_bytes(&mut self) -> u16 {
        match self.random.below(6) {
            0..=2 => self.alike_fields(),
            3 => self.any_blanks(),
            _ => self.any_last_byte(),
        }
    }

    /// Several tests, each answer shown.
    fn alike_fields(&mut self) -> u16 {
        let mut before = vec![self.bare("true")];
        let mut parts = Vec::new();
        for _ in 0..self.random.between(4, 10) {
            let fields = match self.random.below(7) {
                0 => self.near_sign(),
                1 | 2 => self.near_mark(),
                3 => self.any_signs(),
                4 => {
                    let fields = self.random.pick(&FOREIGN);
                    fields.split('|').map(|field| field.as_bytes().to_vec()).collect()
                }
                _ => self.near_sides(),
            };
            let strings: Vec<u16> = fields.iter().map(|field| self.kept(field, &mut before)).collect();
            let list = self.fields(&strings);
            let test = self.utility("test", list);
            parts.push(self.shown_answer(test));
        }
        before.extend(parts);
        self.sequence(&before)
    }

    /// The bytes as a text, a variable or an argument.
    fn kept(&mut self, bytes: &[u8], before: &mut Vec<u16>) -> u16 {
        match self.random.below(8) {
            0 if self.arguments.len() < 17 => {
                self.arguments.push(bytes.to_vec());
                self.argument(self.arguments.len() - 1)
            }
            1 if before.len() < 8 => {
                let name = format!("v{}", before.len());
                let text = self.text(bytes);
                before.push(self.assign(&name, text));
                self.variable(&name)
            }
            _ => self.text(bytes),
        }
    }

    /// Two sides that are equal or nearly so.
    fn near_sides(&mut self) -> Vec<Vec<u8>> {
        let length = self.random.pick(&[0, 1, 1, 2, 3, 16, 32, 61, 62, 63, 63]);
        let left = self.random.bytes(length);
        let right = if self.random.chance(250) { left.clone() } else { self.near_bytes(&left) };
        vec![left, b"=".to_vec(), right]
    }

    /// One bit or byte other, or a byte more or less.
    fn near_bytes(&mut self, bytes: &[u8]) -> Vec<u8> {
        let mut near = bytes.to_vec();
        let place = match self.random.below(2) {
            0 => near.len().saturating_sub(1),
            _ => self.random.below(near.len().max(1)),
        };
        match self.random.below(5) {
            0 if near.len() < 63 => near.push(self.random.pick(&[0, b' ', 255])),
            1 => drop(near.pop()),
            2 if place < near.len() => near[place] = self.random.byte(),
            _ if place < near.len() => near[place] ^= 1 << self.random.below(8),
            _ => near.push(self.random.byte()),
        }
        near
    }

    /// Equal sides, and between them the sign or what is near it.
    fn near_sign(&mut self) -> Vec<Vec<u8>> {
        let length = self.random.below(3);
        let side = self.random.bytes(length);
        let sign = match self.random.below(2) {
            0 => vec![self.random.byte()],
            _ => self.near_bytes(b"="),
        };
        vec![side.clone(), sign, side]
    }

    /// The mark for a field that is not empty or what is near it, then such a field.
    fn near_mark(&mut self) -> Vec<Vec<u8>> {
        let mark = match self.random.below(8) {
            0 => self.near_bytes(b"-n"),
            1 | 2 => vec![self.random.byte(), b'n'],
            3 | 4 => vec![b'-', self.random.byte()],
            _ => b"-n".to_vec(),
        };
        let length = self.random.pick(&[0, 1, 1, 1, 1, 2, 63]);
        let field = match self.random.below(8) {
            0 => vec![0; length],
            _ => self.random.bytes(length),
        };
        vec![mark, field]
    }

    /// Signs in any place.
    fn any_signs(&mut self) -> Vec<Vec<u8>> {
        let count = self.random.pick(&[1, 2, 2, 2, 3, 3, 3, 4, 4, 5]);
        (0..count)
            .map(|_| match self.random.below(5) {
                0 => Vec::new(),
                1 => b"a".to_vec(),
                _ => self.random.pick(&SIGNS).to_vec(),
            })
            .collect()
    }

    /// A split text with bytes of any value between its letters; each field is shown by itself.
    fn any_blanks(&mut self) -> u16 {
        let mut text = Vec::new();
        for _ in 0..self.random.between(1, 14) {
            if self.random.chance(700) {
                text.push(b'a' + text.len() as u8 % 26);
            }
            text.push(match self.random.below(2) {
                0 => self.random.pick(&BLANKS),
                _ => self.random.byte(),
            });
        }
        let mut before = vec![self.bare("true")];
        let string = self.kept(&text, &mut before);
        let rest = self.empty();
        let list = self.split(string, rest);
        let variable = self.variable("x");
        let body = self.echo(&[variable]);
        before.push(self.for_each("x", list, body));
        self.sequence(&before)
    }

    /// A string of about 63 bytes of any value, joined or written, most often with a last byte that
    /// some would leave out.
    fn any_last_byte(&mut self) -> u16 {
        let length = self.random.pick(&[62, 63, 64, 64, 64, 64, 65]);
        let mut bytes = self.random.bytes(length);
        if self.random.chance(250) {
            bytes[length - 1] = self.random.pick(&[0, 0, 10, 32, 255]);
        }
        let mut before = vec![self.bare("true")];
        let string = if self.random.chance(400) {
            self.input = bytes;
            let cat = self.bare("cat");
            self.embedded(cat)
        } else {
            let middle = self.random.pick(&[length / 2, 62, 61, 2]).max(length.saturating_sub(63));
            let left = self.kept(&bytes[..middle], &mut before);
            let right = self.kept(&bytes[middle..], &mut before);
            self.join(left, right)
        };
        before.push(self.user_of(string));
        self.sequence(&before)
    }
}
