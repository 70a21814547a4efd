//! A sheet as nodes that are ready to run. Only good sheets are given to it: it is a baseline for speed, not a judge of sheets.

#[derive(Clone, Copy)]
pub enum Node {
    Text { from: u16, size: u8 },
    Variable(u8),
    Argument(u16),
    Embedded(u16),
    Join(u16, u16),
    Empty,
    Field(u16, u16),
    Split(u16, u16),
    Assign(u8, u16),
    Export(u8),
    Sequence(u16, u16),
    Subshell(u16),
    Not(u16),
    If(u16, u16, u16),
    Nooutput(u16),
    Pipe(u16, u16),
    Utility(Tool, u16),
    Call(u8, u16),
    For(u8, u16, u16),
    While(u16, u16),
    Exit(u8),
    Return(u8),
    Shift(u16),
    Read,
}

#[derive(Clone, Copy)]
pub enum Tool {
    True,
    False,
    Echo,
    Test,
    Cat,
    Env,
    Unknown,
}

#[derive(Clone, Copy)]
pub struct Function {
    pub name: u16,
    pub body: u16,
}

pub struct Program<'a> {
    pub bytes: &'a [u8],
    pub nodes: Vec<Node>,
    pub names: Vec<&'a [u8]>,
    pub functions: Vec<Function>,
    pub main: u16,
}

struct Raw<'a> {
    kind: u16,
    from: usize,
    payload: &'a [u8],
}

fn number(b: &[u8], at: usize) -> u16 {
    u16::from_le_bytes([b[at], b[at + 1]])
}

fn records(bytes: &[u8]) -> Vec<Raw<'_>> {
    let mut at = 0;
    let mut all = Vec::new();
    while at < bytes.len() {
        let size = number(bytes, at) as usize;
        all.push(Raw { kind: number(bytes, at + 2), from: at + 4, payload: &bytes[at + 4..at + 4 + size] });
        at += 4 + size;
    }
    all
}

fn tool(name: &[u8]) -> Tool {
    match name {
        b"true" => Tool::True,
        b"false" => Tool::False,
        b"echo" => Tool::Echo,
        b"test" => Tool::Test,
        b"cat" => Tool::Cat,
        b"env" => Tool::Env,
        _ => Tool::Unknown,
    }
}

/// The slot of a name, a new one where it is met first.
fn slot<'a>(names: &mut Vec<&'a [u8]>, name: &'a [u8]) -> u8 {
    match names.iter().position(|n| *n == name) {
        Some(i) => i as u8,
        None => {
            names.push(name);
            (names.len() - 1) as u8
        }
    }
}

/// The number of the function that a call names; 0 where there is none.
fn function(raw: &[Raw], functions: &[Function], name: &[u8]) -> u8 {
    functions.iter().position(|f| raw[f.name as usize].payload == name).map_or(0, |i| i as u8 + 1)
}

impl<'a> Program<'a> {
    pub fn read(bytes: &'a [u8]) -> Program<'a> {
        let raw = records(bytes);
        let functions: Vec<Function> =
            raw.iter().filter(|r| r.kind == 32).map(|r| Function { name: number(r.payload, 0), body: number(r.payload, 2) }).collect();
        let mut names = Vec::new();
        let nodes = raw.iter().map(|r| node(&raw, &functions, &mut names, r)).collect();
        let main = number(raw[raw.len() - 1].payload, 0);
        Program { bytes, nodes, names, functions, main }
    }

    pub fn text(&self, record: u16) -> &'a [u8] {
        match self.nodes[record as usize] {
            Node::Text { from, size } => &self.bytes[from as usize..from as usize + size as usize],
            _ => &[],
        }
    }
}

fn node<'a>(raw: &[Raw<'a>], functions: &[Function], names: &mut Vec<&'a [u8]>, r: &Raw<'a>) -> Node {
    let n = |i: usize| number(r.payload, 2 * i);
    let named = |i: usize| raw[n(i) as usize].payload;
    match r.kind {
        1 => Node::Text { from: r.from as u16, size: r.payload.len() as u8 },
        2 => Node::Variable(slot(names, named(0))),
        3 => Node::Argument(n(0)),
        4 => Node::Embedded(n(0)),
        5 => Node::Join(n(0), n(1)),
        6 => Node::Empty,
        7 => Node::Field(n(0), n(1)),
        8 => Node::Split(n(0), n(1)),
        16 => Node::Assign(slot(names, named(0)), n(1)),
        17 => Node::Export(slot(names, named(0))),
        18 => Node::Sequence(n(0), n(1)),
        19 => Node::Subshell(n(0)),
        20 => Node::Not(n(0)),
        21 => Node::If(n(0), n(1), n(2)),
        22 => Node::Nooutput(n(0)),
        23 => Node::Pipe(n(0), n(1)),
        24 => Node::Utility(tool(named(0)), n(1)),
        25 => Node::Call(function(raw, functions, named(0)), n(1)),
        26 => Node::For(slot(names, named(0)), n(1), n(2)),
        27 => Node::While(n(0), n(1)),
        28 => Node::Exit(n(0) as u8),
        29 => Node::Return(n(0) as u8),
        30 => Node::Shift(n(0)),
        _ => Node::Read,
    }
}
