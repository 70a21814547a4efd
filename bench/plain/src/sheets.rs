//! The sheets that are measured, built record by record.

pub struct Sheet {
    pub bytes: Vec<u8>,
    records: u16,
}

impl Sheet {
    fn new() -> Sheet {
        Sheet { bytes: Vec::new(), records: 0 }
    }

    fn record(&mut self, kind: u16, payload: &[u8]) -> u16 {
        self.bytes.extend_from_slice(&(payload.len() as u16).to_le_bytes());
        self.bytes.extend_from_slice(&kind.to_le_bytes());
        self.bytes.extend_from_slice(payload);
        self.records += 1;
        self.records - 1
    }

    fn text(&mut self, text: &str) -> u16 {
        self.record(1, text.as_bytes())
    }

    fn of(&mut self, kind: u16, numbers: &[u16]) -> u16 {
        let payload: Vec<u8> = numbers.iter().flat_map(|n| n.to_le_bytes()).collect();
        self.record(kind, &payload)
    }

    fn list(&mut self, strings: &[u16]) -> u16 {
        let mut rest = self.of(6, &[]);
        for s in strings.iter().rev() {
            rest = self.of(7, &[*s, rest]);
        }
        rest
    }

    fn utility(&mut self, name: &str, strings: &[u16]) -> u16 {
        let name = self.text(name);
        let list = self.list(strings);
        self.of(24, &[name, list])
    }

    /// `body` once for each of `many` fields, under a variable of that name.
    fn each(&mut self, name: &str, many: usize, body: u16) -> u16 {
        let name = self.text(name);
        let field = self.text("a");
        let list = self.list(&vec![field; many]);
        self.of(26, &[name, list, body])
    }

    /// `body` 16 times, `deep` loops around each other.
    fn loops(&mut self, deep: usize, body: u16) -> u16 {
        let names = ["i", "j", "k", "l", "m"];
        (0..deep).fold(body, |inner, d| self.each(names[d], 16, inner))
    }

    fn main(mut self, body: u16) -> Sheet {
        self.of(33, &[body]);
        self
    }

    /// The body, then an echo of a variable, so that what was computed is seen.
    fn shows(mut self, body: u16, variable: &str) -> Sheet {
        let name = self.text(variable);
        let value = self.of(2, &[name]);
        let echo = self.utility("echo", &[value]);
        let both = self.of(18, &[body, echo]);
        self.main(both)
    }
}

/// f "$1" .. calls itself with one argument fewer until none is left; called 4,096 times.
pub fn recursion() -> Sheet {
    let mut s = Sheet::new();
    let f = s.text("f");
    let arguments: Vec<u16> = (1..=8).map(|n| s.of(3, &[n])).collect();
    let option = s.text("-n");
    let test = s.utility("test", &[option, arguments[0]]);
    let rest = s.list(&arguments[1..4]);
    let again = s.of(25, &[f, rest]);
    let done = s.utility("true", &[]);
    let body = s.of(21, &[test, again, done]);
    s.of(32, &[f, body]);
    let a = s.text("a");
    let list = s.list(&[a, a, a]);
    let call = s.of(25, &[f, list]);
    let all = s.loops(3, call);
    s.shows(all, "i")
}

/// An assignment from a variable, 65,536 times.
pub fn fields() -> Sheet {
    let mut s = Sheet::new();
    let x = s.text("x");
    let i = s.text("i");
    let value = s.of(2, &[i]);
    let body = s.of(16, &[x, value]);
    let all = s.loops(4, body);
    s.shows(all, "x")
}

/// A string of 16 bytes built by a for over fields, 4,096 times: each field is put behind what there is, and before it what `between` has.
fn built(between: Option<&str>) -> Sheet {
    let mut s = Sheet::new();
    let x = s.text("x");
    let i = s.text("i");
    let nothing = s.text("");
    let mut before = s.of(2, &[x]);
    if let Some(text) = between {
        let part = s.text(text);
        before = s.of(5, &[before, part]);
    }
    let field = s.of(2, &[i]);
    let longer = s.of(5, &[before, field]);
    let put = s.of(16, &[x, longer]);
    let list = s.each("i", 16, put);
    let first = s.of(16, &[x, nothing]);
    let body = s.of(18, &[first, list]);
    let all = ["j", "k", "l"].into_iter().fold(body, |inner, name| s.each(name, 16, inner));
    s.shows(all, "x")
}

pub fn strings() -> Sheet {
    built(None)
}

/// The same with a comma before each field.
pub fn lines() -> Sheet {
    built(Some(","))
}

/// A string of 48 bytes put together from texts and a variable, 65,536 times.
pub fn texts() -> Sheet {
    let mut s = Sheet::new();
    let x = s.text("x");
    let y = s.text("y");
    let text = s.text("0123456789abcdef");
    let short = s.of(16, &[y, text]);
    let value = s.of(2, &[y]);
    let two = s.of(5, &[text, value]);
    let three = s.of(5, &[two, text]);
    let long = s.of(16, &[x, three]);
    let body = s.of(18, &[short, long]);
    let all = s.loops(4, body);
    s.shows(all, "x")
}

/// while test "$x" = a; do x=a; done up to the loop limit.
pub fn rounds() -> Sheet {
    let mut s = Sheet::new();
    let x = s.text("x");
    let a = s.text("a");
    let first = s.of(16, &[x, a]);
    let equals = s.text("=");
    let value = s.of(2, &[x]);
    let test = s.utility("test", &[value, equals, a]);
    let all = s.of(27, &[test, first]);
    let both = s.of(18, &[first, all]);
    s.main(both)
}

/// x=$(echo a) 65,536 times.
pub fn embedded() -> Sheet {
    let mut s = Sheet::new();
    let x = s.text("x");
    let a = s.text("a");
    let echo = s.utility("echo", &[a]);
    let value = s.of(4, &[echo]);
    let body = s.of(16, &[x, value]);
    let all = s.loops(4, body);
    s.main(all)
}

/// echo a | cat with its output dropped, in a subshell, 4,096 times.
pub fn pipes() -> Sheet {
    let mut s = Sheet::new();
    let a = s.text("a");
    let echo = s.utility("echo", &[a]);
    let cat = s.utility("cat", &[]);
    let pipe = s.of(23, &[echo, cat]);
    let quiet = s.of(22, &[pipe]);
    let body = s.of(19, &[quiet]);
    let all = s.loops(3, body);
    s.main(all)
}

/// while true; do true; true; true; true; true; done: sixteen steps a round, three besides.
pub fn steps() -> Sheet {
    let mut s = Sheet::new();
    let one = s.utility("true", &[]);
    let body = (1..5).fold(one, |rest, _| s.of(18, &[one, rest]));
    let all = s.of(27, &[one, body]);
    s.main(all)
}

/// while true; do `true` under so many nots; done.
pub fn nested(deep: usize) -> Sheet {
    let mut s = Sheet::new();
    let one = s.utility("true", &[]);
    let body = (0..deep).fold(one, |inner, _| s.of(20, &[inner]));
    let all = s.of(27, &[one, body]);
    s.main(all)
}

/// Twenty assignments under so many subshells, round after round up to the loop limit.
pub fn held(holds: usize) -> Sheet {
    let mut s = Sheet::new();
    let x = s.text("x");
    let a = s.text("a");
    let one = s.of(16, &[x, a]);
    let mut body = one;
    for _ in 1..20 {
        body = s.of(18, &[one, body]);
    }
    for _ in 0..holds {
        body = s.of(19, &[body]);
    }
    let all = s.of(27, &[one, body]);
    s.main(all)
}

/// An assignment, round after round up to the loop limit, at the end of a sheet of so many records; the others are not reached.
pub fn padded(records: u16) -> Sheet {
    let mut s = Sheet::new();
    while s.records + 5 < records {
        s.text("");
    }
    let x = s.text("x");
    let a = s.text("a");
    let body = s.of(16, &[x, a]);
    let all = s.of(27, &[body, body]);
    s.main(all)
}
