//! Programs with numbers of up to sixteen bits that show if any bit is left out: numbers of
//! arguments, counts of shifts, and loop limits.

use super::maker::Maker;

impl Maker {
    pub fn aimed_numbers(&mut self) -> u16 {
        if self.random.chance(300) {
            return self.aimed_limit();
        }
        let count = self.random.between(1, 16);
        for number in 0..count {
            self.arguments.push(vec![b'a' + number as u8]);
        }
        let mut parts = Vec::new();
        for _ in 0..self.random.between(2, 6) {
            parts.push(match self.random.below(2) {
                0 => {
                    let shown: Vec<u16> = (0..3).map(|_| self.argument_near(count)).collect();
                    self.echo(&shown)
                }
                _ => {
                    let drop = self.large_number(count);
                    let shift = self.sheet.put(30, &[drop]);
                    self.shown_answer(shift)
                }
            });
        }
        parts.push(self.probe());
        let all = self.sequence(&parts);
        self.wrapped(all)
    }

    fn argument_near(&mut self, count: usize) -> u16 {
        let number = self.large_number(count);
        self.argument(number as usize)
    }

    /// A number that would be a small one without one of its bits, or is near a power of two.
    fn large_number(&mut self, small: usize) -> u16 {
        let small = self.random.below(small + 2) as u16;
        let power = 1 << self.random.between(4, 15);
        match self.random.below(6) {
            0 => small,
            1 => power - 1,
            2 => u16::MAX - small,
            _ => power + small,
        }
    }

    /// A loop that runs up to its limit, any low one or one near a power of two.
    fn aimed_limit(&mut self) -> u16 {
        let power = self.random.pick(&[64, 128, 256, 256, 512]);
        let turns = match self.random.below(2) {
            0 => self.random.between(0, 66),
            _ => power + self.random.below(3) - 1,
        };
        self.loop_limit = turns as u64;
        self.budget = (4 * turns + self.random.pick(&[2, 3, 4, 60])) as u64;
        let endless = self.endless();
        self.wrapped(endless)
    }
}
