//! Embedded commands whose streams end in newlines, or nearly so: what they write and how they end.

use super::maker::Maker;

/// A stream above this is refused.
pub const LONGEST: usize = 1_024;
/// Bytes that are one bit or little more away from a newline, or that others cut off as well.
const NEAR_NEWLINE: [u8; 17] = [13, 13, 13, 9, 32, 32, 0, 11, 8, 14, 2, 26, 42, 74, 138, 12, 133];
/// Numbers of newlines at which a counter or a limit of some width may give out.
const MANY: [usize; 18] =
    [15, 16, 17, 31, 32, 62, 63, 64, 65, 127, 128, 255, 256, 257, 511, 512, 1_000, 1_023];

/// What an embedded command is to write.
pub struct Stream {
    /// Empty, or its last byte is no newline.
    pub kept: Vec<u8>,
    pub newlines: usize,
}

impl Stream {
    pub fn of(bytes: &[u8]) -> Stream {
        let newlines = bytes.iter().rev().take_while(|&&byte| byte == b'\n').count();
        Stream { kept: bytes[..bytes.len() - newlines].to_vec(), newlines }
    }

    pub fn bytes(&self) -> Vec<u8> {
        [self.kept.clone(), vec![b'\n'; self.newlines]].concat()
    }
}

impl Maker {
    pub fn any_stream(&mut self) -> Stream {
        let lengths = [0, 0, 0, 1, 1, 2, 3, 5, 24, 32, 61, 62, 62, 63, 63, 63, 64, 64, 65, 66, 700];
        let length = self.random.pick(&lengths);
        let room = LONGEST - length;
        let newlines = match self.random.below(16) {
            0 | 1 => 0,
            2..=6 => 1,
            7..=9 => self.random.between(2, 5),
            10 | 11 => self.random.pick(&MANY).min(room),
            12 | 13 => self.random.between(0, room),
            14 => room,
            _ => room + 1,
        };
        Stream { kept: self.kept_bytes(length), newlines }
    }

    /// One of few bytes, as several of them may stand in one program.
    pub fn short_stream(&mut self) -> Stream {
        let length = self.random.pick(&[0, 0, 1, 1, 2, 3, 8]);
        let newlines = self.random.pick(&[0, 1, 1, 1, 2, 2, 3, 6]);
        Stream { kept: self.kept_bytes(length), newlines }
    }

    /// About as many bytes as a stream may have.
    pub fn nearly_full_stream(&mut self) -> Stream {
        let length = self.random.pick(&[0, 0, 0, 1, 23, 24, 25, 62, 63, 63, 63, 64, 64, 65, 512, 1_000]);
        let total = self.random.pick(&[1_000, 1_023, 1_024, 1_024, 1_024, 1_024, 1_025, 1_025, 1_088]);
        Stream { kept: self.kept_bytes(length), newlines: total - length }
    }

    /// So many bytes, newlines in front and among them too, but for the last one.
    pub fn kept_bytes(&mut self, length: usize) -> Vec<u8> {
        let mut bytes = match self.random.below(4) {
            0 | 1 => self.word(length),
            2 => self.random.bytes(length),
            _ => (0..length).map(|_| self.random.pick(b"\n\n\n\r\r\t \x00\x0bab")).collect(),
        };
        if length > 0 && self.random.chance(250) {
            let begin = self.random.pick(&[0, 0, length / 2, length - 1]);
            let end = (begin + self.random.between(1, 4)).min(length);
            bytes[begin..end].fill(b'\n');
        }
        if length > 1 && self.random.chance(200) {
            bytes[length - 2] = self.random.pick(b"\n\n\r\t ");
        }
        if let Some(last) = bytes.last_mut() {
            *last = self.last_byte();
        }
        bytes
    }

    /// Any byte but a newline, most often one that could be taken for it.
    fn last_byte(&mut self) -> u8 {
        let byte = match self.random.below(4) {
            0 => b'z',
            1 | 2 => self.random.pick(&NEAR_NEWLINE),
            _ => self.random.byte(),
        };
        match byte {
            b'\n' => b'\r',
            _ => byte,
        }
    }

    /// An embedded command with a stream of any sort.
    pub fn any_value(&mut self) -> u16 {
        let stream = self.any_stream();
        self.value_of(&stream)
    }

    /// An embedded command that writes this stream, most often without more ado.
    pub fn value_of(&mut self, stream: &Stream) -> u16 {
        let writer = self.writing(stream);
        let writer = if self.random.chance(350) { self.carried(writer) } else { writer };
        let command = if self.random.chance(250) { self.ended(writer) } else { writer };
        self.embedded(command)
    }

    /// Surroundings that let the stream through, unless it comes from the input.
    fn carried(&mut self, writer: u16) -> u16 {
        let yes = self.bare("true");
        match self.random.below(10) {
            0 => self.sheet.put(19, &[writer]),
            1 | 2 => {
                let cat = self.bare("cat");
                self.sheet.put(23, &[writer, cat])
            }
            3 => self.sheet.put(23, &[yes, writer]),
            4 if self.functions.len() < 32 => {
                let name = self.fresh_function(writer);
                self.call(&name, &[])
            }
            5 => {
                let word = self.text(b"w");
                let list = self.fields(&[word]);
                self.for_each("y", list, writer)
            }
            6 => self.sheet.put(21, &[yes, writer, yes]),
            7 => self.sheet.put(20, &[writer]),
            _ => self.beside_others(writer),
        }
    }

    /// With an instruction before or after it that writes nothing, something, or what is dropped.
    fn beside_others(&mut self, writer: u16) -> u16 {
        let word = self.text(b"w");
        let assign = self.assign("x", word);
        match self.random.below(5) {
            // A change of the context, which goes.
            0 => self.sequence(&[assign, writer]),
            1 | 2 => {
                let dropped = self.echo(&[word]);
                let dropped = self.sheet.put(22, &[dropped]);
                match self.random.below(2) {
                    0 => self.sequence(&[dropped, writer]),
                    _ => self.sequence(&[writer, dropped]),
                }
            }
            3 => {
                // The newlines of a pipe's stream are no longer the last bytes.
                let (cat, echo) = (self.bare("cat"), self.echo(&[word]));
                let pipe = self.sheet.put(23, &[writer, cat]);
                self.sequence(&[pipe, echo])
            }
            _ => {
                let (export, env) = (self.export("x"), self.bare("env"));
                match self.random.below(2) {
                    0 => self.sequence(&[assign, export, env, writer]),
                    _ => self.sequence(&[writer, assign, export, env]),
                }
            }
        }
    }

    /// With an end of any behaviour and result after what is written.
    fn ended(&mut self, writer: u16) -> u16 {
        let end = match self.random.below(6) {
            0 => self.bare("false"),
            1 => self.failing(),
            2 | 3 => {
                let (kind, code) = (self.random.pick(&[28, 29]), self.random.below(3) as u16);
                self.sheet.put(kind, &[code])
            }
            _ => self.any_end(),
        };
        self.sequence(&[writer, end])
    }
}
