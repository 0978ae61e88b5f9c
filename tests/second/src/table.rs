//! The gate table as bytes: reading, with the refusals 1 to 6 of document 01, and writing.
//!
//! Loops are no part of reading: a table whose gates reach themselves is read whole.

/// The most nodes that a table may have, inputs and gates together.
pub const NODE_LIMIT: usize = 192;
/// The most inputs that a table may have.
pub const INPUT_LIMIT: usize = 64;
/// The most outputs that a table may have.
pub const OUTPUT_LIMIT: usize = 64;
/// The most fanins that a gate may have, which is the greatest K.
pub const FANIN_LIMIT: usize = 6;

const HEAD_TAG: u8 = 1;
const GATE_TAG: u8 = 2;
const OUTPUT_TAG: u8 = 3;

/// A tag and a length stand before every value.
const START_BYTES: usize = 3;
/// A gate's value without its fanins: m and the function table.
const GATE_BYTES: usize = 9;

/// The paper's names of what a reading can refuse, each with the paper's number.
#[derive(Clone, Copy, Debug, PartialEq, Eq)]
pub enum Fault {
    Torn = 1,
    Tag = 2,
    Length = 3,
    Range = 4,
    Rows = 5,
    Outputs = 6,
}

impl Fault {
    /// The paper's number.
    pub fn number(self) -> u32 {
        self as u32
    }
}

/// The first fault of a table and the place that the paper gives it.
#[derive(Clone, Copy, Debug, PartialEq, Eq)]
pub struct Refusal {
    pub fault: Fault,
    pub place: usize,
}

/// What the head says: K, the number of inputs and the number of gates.
#[derive(Clone, Copy, Debug, PartialEq, Eq)]
pub struct Head {
    pub k: usize,
    pub inputs: usize,
    pub gates: usize,
}

impl Head {
    fn nodes(self) -> usize {
        self.inputs + self.gates
    }
}

/// A gate: its fanins in the order of the file, and its function table. Bit r of `rows` is the
/// result of row r.
#[derive(Clone, Debug, PartialEq, Eq)]
pub struct Gate {
    pub fanins: Vec<usize>,
    pub rows: u64,
}

/// A whole gate table. Gate i is node `inputs + i`.
#[derive(Clone, Debug, PartialEq, Eq)]
pub struct Table {
    pub k: usize,
    pub inputs: usize,
    pub gates: Vec<Gate>,
    pub outputs: Vec<usize>,
}

/// All that a reading finds. Up to the first fault, the head, gates and outputs that were read
/// whole are here, refused or not.
#[derive(Clone, Debug, Default, PartialEq, Eq)]
pub struct Reading {
    pub head: Option<Head>,
    pub gates: Vec<Gate>,
    pub outputs: Vec<usize>,
    pub refusal: Option<Refusal>,
}

impl Reading {
    /// The table, if it was read whole.
    pub fn table(self) -> Result<Table, Refusal> {
        match (self.refusal, self.head) {
            (Some(refusal), _) => Err(refusal),
            (None, Some(head)) => Ok(Table {
                k: head.k,
                inputs: head.inputs,
                gates: self.gates,
                outputs: self.outputs,
            }),
            (None, None) => unreachable!("a reading without a head is refused"),
        }
    }
}

/// Reads a gate table, field by field from the left, up to its end or its first fault.
pub fn read(bytes: &[u8]) -> Reading {
    let mut reading = Reading::default();
    reading.refusal = read_fields(bytes, &mut reading).err();
    reading
}

fn read_fields(bytes: &[u8], reading: &mut Reading) -> Result<(), Refusal> {
    let mut fields = Fields { bytes, start: 0 };
    let head = read_head(&mut fields)?;
    reading.head = Some(head);
    for _ in 0..head.gates {
        let gate = read_gate(&mut fields, head)?;
        reading.gates.push(gate);
    }
    while fields.bytes_left() > 0 {
        let output = read_output(&mut fields, head, reading.outputs.len())?;
        reading.outputs.push(output);
    }
    if reading.outputs.is_empty() {
        return Err(fields.refusal(Fault::Outputs));
    }
    Ok(())
}

fn read_head(fields: &mut Fields) -> Result<Head, Refusal> {
    fields.begin(HEAD_TAG)?;
    let value = fields.value()?;
    if value.len() != 4 {
        return Err(fields.refusal(Fault::Length));
    }
    let version = value[0];
    let head = Head {
        k: usize::from(value[1]),
        inputs: usize::from(value[2]),
        gates: usize::from(value[3]),
    };
    let in_range = version == 1
        && (2..=FANIN_LIMIT).contains(&head.k)
        && (1..=INPUT_LIMIT).contains(&head.inputs)
        && head.nodes() <= NODE_LIMIT;
    if !in_range {
        return Err(fields.refusal(Fault::Range));
    }
    fields.pass(value);
    Ok(head)
}

fn read_gate(fields: &mut Fields, head: Head) -> Result<Gate, Refusal> {
    fields.begin(GATE_TAG)?;
    let value = fields.value()?;
    // Below 10 bytes there may be no m to look at, so the bounds come first.
    let bounds = GATE_BYTES + 1..=GATE_BYTES + FANIN_LIMIT;
    if !bounds.contains(&value.len()) || value.len() != GATE_BYTES + usize::from(value[0]) {
        return Err(fields.refusal(Fault::Length));
    }
    let (ids, row_bytes) = value[1..].split_at(value.len() - GATE_BYTES);
    let fanins: Vec<usize> = ids.iter().map(|&id| usize::from(id)).collect();
    if fanins.len() > head.k || fanins.iter().any(|&id| id >= head.nodes()) {
        return Err(fields.refusal(Fault::Range));
    }
    let rows = row_bytes.iter().fold(0, |rows, &byte| rows << 8 | u64::from(byte));
    if rows & !row_mask(fanins.len()) != 0 {
        return Err(fields.refusal(Fault::Rows));
    }
    fields.pass(value);
    Ok(Gate { fanins, rows })
}

fn read_output(fields: &mut Fields, head: Head, outputs_before: usize) -> Result<usize, Refusal> {
    fields.begin(OUTPUT_TAG)?;
    if outputs_before == OUTPUT_LIMIT {
        return Err(fields.refusal(Fault::Outputs));
    }
    let value = fields.value()?;
    if value.len() != 1 {
        return Err(fields.refusal(Fault::Length));
    }
    let output = usize::from(value[0]);
    if output >= head.nodes() {
        return Err(fields.refusal(Fault::Range));
    }
    fields.pass(value);
    Ok(output)
}

/// The rows that a gate of this many fanins has, a bit for each.
pub fn row_mask(fanins: usize) -> u64 {
    if fanins >= FANIN_LIMIT {
        u64::MAX
    } else {
        (1 << (1 << fanins)) - 1
    }
}

/// The bytes and the start of the field that is being read. The start is the place of every
/// refusal of that field, so it moves only once the field is read whole.
pub(crate) struct Fields<'a> {
    pub(crate) bytes: &'a [u8],
    pub(crate) start: usize,
}

impl<'a> Fields<'a> {
    pub(crate) fn bytes_left(&self) -> usize {
        self.bytes.len() - self.start
    }

    pub(crate) fn refusal(&self, fault: Fault) -> Refusal {
        Refusal { fault, place: self.start }
    }

    /// The first two tests of every field: that its tag and length are there, and the tag.
    pub(crate) fn begin(&self, tag_due: u8) -> Result<(), Refusal> {
        if self.bytes_left() < START_BYTES {
            return Err(self.refusal(Fault::Torn));
        }
        if self.bytes[self.start] != tag_due {
            return Err(self.refusal(Fault::Tag));
        }
        Ok(())
    }

    /// The value of a field that has begun, of the length that the field itself gives.
    pub(crate) fn value(&self) -> Result<&'a [u8], Refusal> {
        let high = usize::from(self.bytes[self.start + 1]);
        let low = usize::from(self.bytes[self.start + 2]);
        let begin = self.start + START_BYTES;
        self.bytes.get(begin..begin + high * 256 + low).ok_or_else(|| self.refusal(Fault::Torn))
    }

    /// Goes on to the next field.
    pub(crate) fn pass(&mut self, value: &[u8]) {
        self.start += START_BYTES + value.len();
    }
}

/// A field as bytes, whether a table may hold it or not.
pub fn field(tag: u8, value: &[u8]) -> Vec<u8> {
    let length = u16::try_from(value.len()).expect("a length has two bytes");
    let mut bytes = vec![tag];
    bytes.extend(length.to_be_bytes());
    bytes.extend(value);
    bytes
}

/// A head as bytes, its numbers in range or not.
pub fn head_field(k: u8, inputs: u8, gates: u8) -> Vec<u8> {
    field(HEAD_TAG, &[1, k, inputs, gates])
}

/// A gate as bytes, its fanins and rows in range or not.
pub fn gate_field(fanins: &[u8], rows: u64) -> Vec<u8> {
    let mut value = vec![u8::try_from(fanins.len()).expect("m is a byte")];
    value.extend(fanins);
    value.extend(rows.to_be_bytes());
    field(GATE_TAG, &value)
}

/// An output as bytes, its id in range or not.
pub fn output_field(node: u8) -> Vec<u8> {
    field(OUTPUT_TAG, &[node])
}

impl Table {
    /// The table as bytes, a vector for each field.
    pub fn fields(&self) -> Vec<Vec<u8>> {
        let byte = |number: usize| u8::try_from(number).expect("a table's numbers are bytes");
        let mut fields = vec![head_field(byte(self.k), byte(self.inputs), byte(self.gates.len()))];
        for gate in &self.gates {
            let fanins: Vec<u8> = gate.fanins.iter().map(|&id| byte(id)).collect();
            fields.push(gate_field(&fanins, gate.rows));
        }
        fields.extend(self.outputs.iter().map(|&node| output_field(byte(node))));
        fields
    }

    /// The table as bytes.
    pub fn bytes(&self) -> Vec<u8> {
        self.fields().concat()
    }
}

#[cfg(test)]
mod tests {
    use super::*;

    fn refused(fault: Fault, place: usize) -> Option<Refusal> {
        Some(Refusal { fault, place })
    }

    #[test]
    fn what_was_read_before_a_fault_is_kept() {
        let bytes = [head_field(2, 1, 2), gate_field(&[0], 1), gate_field(&[1, 3], 8)].concat();
        let reading = read(&bytes);
        assert_eq!(reading.refusal, refused(Fault::Range, 20));
        assert_eq!(reading.head.map(|head| head.gates), Some(2));
        let read_whole = Gate { fanins: vec![0], rows: 1 };
        assert_eq!(reading.gates, [read_whole]);
        assert!(reading.outputs.is_empty());
    }

    #[test]
    fn a_bad_head_leaves_nothing() {
        let reading = read(&[head_field(7, 1, 0), output_field(0)].concat());
        assert_eq!(reading.refusal, refused(Fault::Range, 0));
        assert_eq!(reading.head, None);
        assert!(reading.outputs.is_empty());
    }

    #[test]
    fn no_bytes_are_torn_at_0() {
        assert_eq!(read(&[]).refusal, refused(Fault::Torn, 0));
    }

    #[test]
    fn rows_of_each_number_of_fanins() {
        assert_eq!(row_mask(1), 0x3);
        assert_eq!(row_mask(2), 0xF);
        assert_eq!(row_mask(3), 0xFF);
        assert_eq!(row_mask(4), 0xFFFF);
        assert_eq!(row_mask(5), 0xFFFF_FFFF);
        assert_eq!(row_mask(6), u64::MAX);
    }

    #[test]
    fn the_65th_output_is_named_before_its_missing_value() {
        let mut bytes = head_field(2, 1, 0);
        for _ in 0..OUTPUT_LIMIT {
            bytes.extend(output_field(0));
        }
        assert_eq!(read(&bytes).refusal, None);
        bytes.extend([3, 0]);
        assert_eq!(read(&bytes).refusal, refused(Fault::Torn, 263));
        bytes.push(1);
        assert_eq!(read(&bytes).refusal, refused(Fault::Outputs, 263));
        assert_eq!(read(&bytes).outputs.len(), OUTPUT_LIMIT);
    }
}
