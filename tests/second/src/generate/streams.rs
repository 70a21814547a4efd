//! Programs aimed at the limit on streams (1,024 bytes).

use super::maker::Maker;

impl Maker {
    pub fn aimed_stream(&mut self) -> u16 {
        let total = self.random.pick(&[1_023, 1_024, 1_024, 1_024, 1_025, 1_025, 1_025, 1_026, 1_100]);
        let writer = match self.random.below(4) {
            0 => self.writing_by_cat(total),
            1 => self.writing_by_env(total),
            2 => self.writing_by_loop(total),
            _ => self.writing_by_echo(total),
        };
        let writer = match self.random.below(9) {
            0 => self.sheet.put(22, &[writer]),
            1 | 2 => {
                let cat = self.bare("cat");
                self.sheet.put(23, &[writer, cat])
            }
            3 => {
                let end = self.any_end();
                let both = self.sequence(&[writer, end]);
                let string = self.embedded(both);
                self.assign("x", string)
            }
            4 => {
                // The first side has its own stream, also where the output is dropped.
                let cat = self.bare("cat");
                let pipe = self.sheet.put(23, &[writer, cat]);
                self.sheet.put(22, &[pipe])
            }
            5 => {
                let aside = self.sheet.put(22, &[writer]);
                self.sequence(&[aside, writer])
            }
            _ => writer,
        };
        self.wrapped(writer)
    }

    /// Echoes that write so many bytes in all.
    fn writing_by_echo(&mut self, total: usize) -> u16 {
        let mut left = total;
        let mut parts = vec![self.bare("true")];
        while left > 0 {
            let lines = (left / 64).min(self.random.between(1, 16));
            if lines > 0 && self.random.chance(600) {
                let text = self.word(63);
                let text = self.text(&text);
                parts.push(self.echo(&vec![text; lines]));
                left -= lines * 64;
            } else {
                let length = left.min(self.random.between(1, 64));
                let text = self.word(length - 1);
                parts.push(self.echo_text(&text));
                left -= length;
            }
        }
        self.sequence(&parts)
    }

    /// The input after what echoes wrote.
    fn writing_by_cat(&mut self, total: usize) -> u16 {
        let length = self.random.pick(&[0, 1, 63, 500, 1_023, 1_024]).min(total);
        self.input = self.random.bytes(length);
        let cat = self.bare("cat");
        let echoes = self.writing_by_echo(total - length);
        match self.random.below(2) {
            0 => self.sequence(&[cat, echoes]),
            _ => self.sequence(&[echoes, cat]),
        }
    }

    /// Long names and values, marked, set and written by env.
    fn writing_by_env(&mut self, total: usize) -> u16 {
        let mut left = total;
        let mut parts = Vec::new();
        while left > 0 {
            let length =
                if left <= 128 { left } else { self.random.pick(&[128, 128, 64, 70]).min(left - 66) };
            let name = format!("{:_<1$}", format!("n{}_", parts.len()), (length - 2).min(63));
            let value = self.word((length - 2).saturating_sub(name.len()));
            let value = self.text(&value);
            let assign = self.assign(&name, value);
            let export = self.export(&name);
            parts.push(match self.random.below(2) {
                0 => self.sequence(&[assign, export]),
                _ => self.sequence(&[export, assign]),
            });
            left -= length;
        }
        parts.push(self.bare("env"));
        self.sequence(&parts)
    }

    /// A for that echoes in its body.
    fn writing_by_loop(&mut self, total: usize) -> u16 {
        let field = self.word(self.sheet.records.len() % 2 + 61);
        let text = self.text(&field);
        let turns = total / (field.len() + 1);
        let list = self.fields(&vec![text; turns.min(16)]);
        let variable = self.variable("x");
        let body = self.echo(&[variable]);
        let loops = self.for_each("x", list, body);
        let rest = total - turns.min(16) * (field.len() + 1);
        let echoes = self.writing_by_echo(rest);
        self.sequence(&[loops, echoes])
    }
}
