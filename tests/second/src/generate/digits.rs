//! Edges whose calls or steps are near a power of ten, or near what sixteen bits can tell.

use super::maker::Maker;

impl Maker {
    pub fn digits(&mut self) -> u16 {
        self.stack_limit = 10;
        self.budget = 1_000_000;
        let large = self.random.chance(30);
        let powers = if large { [32_768, 65_536, 100_000] } else { [10, 100, 1_000] };
        let power = if self.random.chance(60) { 10_000 } else { self.random.pick(&powers) };
        let near = power + self.random.below(3) - 1;
        // One large figure is long enough a run.
        let other = if large { 1 } else { self.random.between(1, 3) };
        let (calls, length) = if self.random.chance(500) { (near, other) } else { (other, near) };
        let body = self.lasting(length);
        self.function("g", body);
        let call = self.call("g", &[]);
        let many = self.repeated(call, calls);
        let main = self.called_from(many);
        if self.random.chance(4) {
            // Main alone makes every step, as seven digits are more than any edge can have.
            let steps = 1_000_000 - self.random.below(2);
            return self.lasting(steps);
        }
        main
    }

    /// Runs the instruction exactly so often, with few records.
    pub fn repeated(&mut self, instruction: u16, times: usize) -> u16 {
        if times == 1 {
            return instruction;
        }
        let half = self.repeated(instruction, times / 2);
        let twice = self.sheet.put(18, &[half, half]);
        if times.is_multiple_of(2) {
            return twice;
        }
        self.sheet.put(18, &[instruction, twice])
    }

    /// From main, from a function, or from the innermost level of one that calls itself.
    fn called_from(&mut self, many: u16) -> u16 {
        match self.random.below(4) {
            0 | 1 => many,
            2 => {
                self.function("f", many);
                self.call("f", &[])
            }
            _ => {
                let levels = self.random.between(1, 9);
                let list = self.handed_on(levels);
                let name = self.text(b"f");
                let further = self.sheet.put(25, &[name, list]);
                let first = self.argument(1);
                let test = self.is_set(first);
                let body = self.sheet.put(21, &[test, further, many]);
                self.function("f", body);
                let words: Vec<u16> = (0..levels).map(|_| self.text(b"a")).collect();
                self.call("f", &words)
            }
        }
    }
}
