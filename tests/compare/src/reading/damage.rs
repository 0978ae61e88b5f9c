//! Damage to gate tables, field by field and byte by byte.

use second::random::Random;
use second::table::{gate_field, output_field, row_mask, Table};

/// Byte values that mean something somewhere in a table: tags, lengths, small counts, limits.
const TELLING: [u8; 22] =
    [0, 1, 2, 3, 4, 5, 6, 7, 8, 9, 10, 11, 12, 15, 16, 63, 64, 65, 191, 192, 193, 255];

/// A byte that is often a telling one.
fn telling_byte(random: &mut Random) -> u8 {
    match random.one_in(4) {
        true => random.word() as u8,
        false => *random.pick(&TELLING),
    }
}

pub fn any_bytes(random: &mut Random, length: usize) -> Vec<u8> {
    (0..length).map(|_| random.word() as u8).collect()
}

pub fn telling_bytes(random: &mut Random, length: usize) -> Vec<u8> {
    (0..length).map(|_| telling_byte(random)).collect()
}

/// The table's bytes with up to two fields and then up to three bytes damaged, or none.
pub fn damaged(random: &mut Random, table: &Table) -> Vec<u8> {
    let mut fields = table.fields();
    for _ in 0..random.below(3) {
        damage_fields(random, &mut fields);
    }
    let mut bytes = fields.concat();
    for _ in 0..random.below(4) {
        damage_bytes(random, &mut bytes);
    }
    bytes
}

fn damage_fields(random: &mut Random, fields: &mut Vec<Vec<u8>>) {
    if fields.is_empty() {
        return;
    }
    let chosen = random.below(fields.len());
    let other = random.below(fields.len());
    match random.below(9) {
        0 => drop(fields.remove(chosen)),
        1 => fields.insert(other, fields[chosen].clone()),
        2 => fields.swap(chosen, other),
        3 => fields.truncate(chosen),
        4 => fields.push(fields[chosen].clone()),
        5 => fields[chosen] = odd_gate(random),
        6 => fields.push(output_field(0)[..random.between(1, 3)].to_vec()),
        _ => damage_start(random, &mut fields[chosen]),
    }
}

/// A gate of 0 to 8 fanins, of the length that they ask for.
fn odd_gate(random: &mut Random) -> Vec<u8> {
    let fanins: Vec<u8> = (0..random.below(9)).map(|_| random.below(4) as u8).collect();
    gate_field(&fanins, random.word() & row_mask(fanins.len()))
}

/// Changes one of a field's first bytes, where its tag, its length and a gate's m stand.
fn damage_start(random: &mut Random, field: &mut [u8]) {
    let position = random.below(field.len().min(5));
    field[position] = telling_byte(random);
}

fn damage_bytes(random: &mut Random, bytes: &mut Vec<u8>) {
    let position = random.between(0, bytes.len());
    match random.below(8) {
        0 => bytes.insert(position, telling_byte(random)),
        1 => bytes.truncate(position),
        2 => {
            let more = random.between(1, 6);
            bytes.extend(telling_bytes(random, more));
        }
        kind if position < bytes.len() => match kind {
            3 => drop(bytes.remove(position)),
            4 => bytes[position] ^= 1 << random.below(8),
            5 => bytes[position] = bytes[position].wrapping_add(1),
            6 => bytes[position] = random.word() as u8,
            _ => bytes[position] = telling_byte(random),
        },
        _ => {}
    }
}
