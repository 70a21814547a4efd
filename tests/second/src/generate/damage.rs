//! Damaged sheets: one fault or more, at any record.

use crate::random::Random;
use crate::writer::{references, Record, Sheet};

const BAD_NAMES: [&[u8]; 16] = [
    b"",
    b"1",
    b"9a",
    b"a-b",
    b"a b",
    b"a.",
    b"-",
    b"a\xc3\xa9",
    b"\xff",
    b"a\x00",
    b"@",
    b"[",
    b"`",
    b"{",
    b"a/",
    b"a:",
];

/// A damaged copy of a sheet that was good.
pub fn damaged(sheet: &[u8], random: &mut Random) -> Vec<u8> {
    let mut records = read(sheet);
    let mut bytes = match random.below(4) {
        0 => damaged_frame(&mut records, random),
        1 => damaged_shape(&mut records, random),
        2 => {
            damage_reference(&mut records, random);
            records.bytes()
        }
        _ => {
            damage_payload(&mut records, random);
            records.bytes()
        }
    };
    if random.chance(60) {
        bytes = mutated(&bytes, random);
    }
    bytes
}

fn read(sheet: &[u8]) -> Sheet {
    let mut records = Sheet::default();
    let mut rest = sheet;
    while let Some((kind, payload, after)) = crate::sheet::cut_record(rest) {
        records.add(kind, payload);
        rest = after;
    }
    records
}

/// Faults in lengths and ends of records.
fn damaged_frame(sheet: &mut Sheet, random: &mut Random) -> Vec<u8> {
    let mut bytes = sheet.bytes();
    let target = random.below(sheet.records.len());
    let offset: usize = sheet.records[..target].iter().map(|r| 4 + r.payload.len()).sum();
    match random.below(5) {
        0 => bytes.truncate(random.below(bytes.len())),
        1 => {
            let inside = 4 + sheet.records[target].payload.len();
            bytes.truncate(offset + random.below(inside));
        }
        2 => {
            let length = sheet.records[target].payload.len() as u16;
            let other = length ^ 1 << random.below(16);
            let wrong =
                random.pick(&[length.wrapping_add(1), length.wrapping_sub(1), other, other, 65_535, 0, 2]);
            bytes[offset..offset + 2].copy_from_slice(&wrong.to_le_bytes());
        }
        3 => bytes[offset..offset + 4].reverse(),
        _ => {
            let more = random.pick(&[1, 2, 3, 4, 6, 40]);
            bytes.extend(random.bytes(more));
        }
    }
    bytes
}

/// Faults in the number and order of records.
fn damaged_shape(sheet: &mut Sheet, random: &mut Random) -> Vec<u8> {
    let target = random.below(sheet.records.len());
    let last = sheet.records.len() - 1;
    let record = sheet.records[target].clone();
    match random.below(8) {
        0 => sheet.records.truncate(last),
        1 => sheet.records.push(record),
        2 => sheet.records.swap(target, last),
        3 => drop(sheet.records.remove(target)),
        4 => sheet.records.insert(target, record),
        5 => second_function(sheet, random),
        6 => sheet.records.truncate(target),
        _ => {
            let main = sheet.records[last].clone();
            sheet.records.push(main);
        }
    }
    sheet.bytes()
}

/// Gives a name twice, right ahead of main.
fn second_function(sheet: &mut Sheet, random: &mut Random) {
    let main = sheet.records.pop();
    let body = sheet.put(28, &[0]);
    let name = sheet.text(b"twice");
    let again = if random.chance(500) { sheet.text(b"twice") } else { name };
    sheet.put(32, &[name, body]);
    sheet.put(32, &[again, body]);
    sheet.records.extend(main);
}

/// A reference that is too late, out of range or of another sort.
fn damage_reference(sheet: &mut Sheet, random: &mut Random) {
    let with: Vec<usize> = (0..sheet.records.len()).filter(|&n| has_references(&sheet.records[n])).collect();
    if with.is_empty() {
        return;
    }
    let target = random.pick(&with);
    let position = random.below(references(sheet.records[target].kind));
    let before = sheet.records[target].reference(position);
    let anything = random.below(sheet.records.len()) as u16;
    let function = sheet.records.iter().position(|record| record.kind == 32).unwrap_or(0) as u16;
    let bit = 1 << random.below(16);
    let wrong = random.pick(&[
        target as u16,
        target as u16 + 1,
        65_535,
        512,
        function,
        anything,
        anything,
        anything,
        before ^ bit,
        before ^ bit,
        before.wrapping_add(1),
        before.wrapping_sub(1),
    ]);
    sheet.records[target].set_reference(position, wrong);
}

fn has_references(record: &Record) -> bool {
    references(record.kind) > 0 && record.payload.len() == 2 * references(record.kind)
}

/// Faults inside one record.
fn damage_payload(sheet: &mut Sheet, random: &mut Random) {
    let target = random.below(sheet.records.len());
    match random.weighted(&[2, 2, 4, 2, 1, 2, 2]) {
        0 => {
            let kind = sheet.records[target].kind;
            let other = kind ^ 1 << random.below(16);
            let wrong = [0, 9, 15, 31, 34, 64, 66, 65_535, other, other, kind.swap_bytes()];
            sheet.records[target].kind = random.pick(&wrong);
        }
        1 => sheet.records[target].kind = random.between(1, 33) as u16,
        2 => {
            let name = used_name(sheet, random).unwrap_or(target);
            sheet.records[name].payload = random.pick(&BAD_NAMES).to_vec();
        }
        3 => {
            let large = (1 << random.between(2, 15)) + random.below(3) as u16;
            let code = random.pick(&[3, 4, 65_535, large, large]);
            let kind = random.pick(&[28, 29]);
            insert_before_main(sheet, kind, &u16::to_le_bytes(code));
        }
        4 => {
            let length = random.pick(&[63, 64, 64, 65, 255, 256, 300]);
            insert_before_main(sheet, 1, &vec![b't'; length]);
        }
        5 => move_to_edge(sheet, random),
        _ => {
            let payload = &mut sheet.records[target].payload;
            match random.below(3) {
                0 => payload.push(0),
                1 => drop(payload.pop()),
                _ => payload.extend([0, 0]),
            }
        }
    }
}

/// The number just beyond its sort for a record of a first or last kind, the payload left right.
fn move_to_edge(sheet: &mut Sheet, random: &mut Random) {
    let edges = [(1, 0), (8, 9), (16, 15), (30, 31), (32, 31), (33, 34)];
    let (kind, beyond) = random.pick(&edges);
    match sheet.records.iter_mut().find(|record| record.kind == kind) {
        Some(record) => record.kind = beyond,
        None => insert_before_main(sheet, 31, &[0, 0]),
    }
}

fn insert_before_main(sheet: &mut Sheet, kind: u16, payload: &[u8]) {
    let main = sheet.records.pop();
    sheet.add(kind, payload);
    sheet.records.extend(main);
}

/// The number of a text record that some record uses as a name.
fn used_name(sheet: &Sheet, random: &mut Random) -> Option<usize> {
    let names: Vec<usize> = sheet
        .records
        .iter()
        .filter(|record| matches!(record.kind, 2 | 16 | 17 | 24 | 25 | 26 | 32) && has_references(record))
        .map(|record| record.reference(0) as usize)
        .filter(|&name| name < sheet.records.len())
        .collect();
    if names.is_empty() {
        return None;
    }
    Some(random.pick(&names))
}

/// A few bytes changed, put in or taken out.
pub fn mutated(bytes: &[u8], random: &mut Random) -> Vec<u8> {
    let mut bytes = bytes.to_vec();
    for _ in 0..random.pick(&[1, 1, 1, 2, 5]) {
        let place = random.below(bytes.len() + 1);
        match random.below(4) {
            0 => bytes.insert(place, random.pick(&[0, 1, 2, 255])),
            1 if place < bytes.len() => drop(bytes.remove(place)),
            2 if place < bytes.len() => bytes[place] ^= 1 << random.below(8),
            _ if place < bytes.len() => bytes[place] = random.byte(),
            _ => bytes.push(random.byte()),
        }
    }
    bytes
}

/// Bytes without plan, or with headers that look right.
pub fn noise(random: &mut Random) -> Vec<u8> {
    let length = random.pick(&[0, 1, 3, 4, 10, 100, 1_000]);
    if random.chance(500) {
        return random.bytes(length);
    }
    let mut sheet = Sheet::default();
    for number in 0..random.between(1, 20) {
        let kind = random.between(1, 33) as u16;
        let earlier: Vec<u16> = (0..references(kind)).map(|_| random.below(number + 1) as u16).collect();
        sheet.put(kind, &earlier);
    }
    sheet.bytes()
}
