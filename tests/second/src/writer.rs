//! Writes sheets record by record. Nothing is checked: damaged sheets are written with it too.

#[derive(Clone)]
pub struct Record {
    pub kind: u16,
    pub payload: Vec<u8>,
}

#[derive(Clone, Default)]
pub struct Sheet {
    pub records: Vec<Record>,
}

/// How many references begin the payload of a kind.
pub fn references(kind: u16) -> usize {
    match kind {
        2 | 4 | 17 | 19 | 20 | 22 | 33 => 1,
        5 | 7 | 8 | 16 | 18 | 23 | 24 | 25 | 27 | 32 => 2,
        21 | 26 => 3,
        _ => 0,
    }
}

impl Record {
    pub fn write(&self, bytes: &mut Vec<u8>) {
        bytes.extend((self.payload.len() as u16).to_le_bytes());
        bytes.extend(self.kind.to_le_bytes());
        bytes.extend_from_slice(&self.payload);
    }

    pub fn reference(&self, position: usize) -> u16 {
        u16::from_le_bytes([self.payload[2 * position], self.payload[2 * position + 1]])
    }

    pub fn set_reference(&mut self, position: usize, number: u16) {
        self.payload[2 * position..2 * position + 2].copy_from_slice(&number.to_le_bytes());
    }
}

impl Sheet {
    pub fn bytes(&self) -> Vec<u8> {
        let mut bytes = Vec::new();
        for record in &self.records {
            record.write(&mut bytes);
        }
        bytes
    }

    pub fn size(&self) -> usize {
        self.records.iter().map(|record| 4 + record.payload.len()).sum()
    }

    /// Adds a record and gives its number.
    pub fn add(&mut self, kind: u16, payload: &[u8]) -> u16 {
        self.records.push(Record { kind, payload: payload.to_vec() });
        (self.records.len() - 1) as u16
    }

    /// Adds a record whose payload is numbers.
    pub fn put(&mut self, kind: u16, numbers: &[u16]) -> u16 {
        let payload: Vec<u8> = numbers.iter().flat_map(|number| number.to_le_bytes()).collect();
        self.add(kind, &payload)
    }

    pub fn text(&mut self, text: &[u8]) -> u16 {
        self.add(1, text)
    }
}

/// An argument sheet of these texts.
pub fn argument_sheet(texts: &[Vec<u8>]) -> Vec<u8> {
    let mut sheet = Sheet::default();
    for text in texts {
        sheet.text(text);
    }
    sheet.bytes()
}
