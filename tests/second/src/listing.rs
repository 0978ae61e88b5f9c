//! What the programs print.

use crate::equations::{compile, TABLE_ROOM, TEXT_LIMIT};
use crate::graph::Graph;
use crate::inspect::inspect;
use crate::mapping::{depths, Lut};
use crate::sheet::{mapped, BUFFER_LIMIT};
use crate::Refused;

/// The programs read no more of a gate table than this.
pub const TABLE_BYTES: usize = 4_096;
/// The inspector's program reads no more of a sheet than this.
pub const SHEET_BYTES: usize = BUFFER_LIMIT;

/// What the lister prints when this is its standard input.
pub fn listing(standard_input: &[u8]) -> String {
    match Graph::read(first(standard_input, TABLE_BYTES)) {
        Ok(graph) => lines(&graph).concat(),
        Err(refused) => refusal_line(refused),
    }
}

/// What the inspector's program prints when these are its files. A file that cannot be opened
/// counts as empty.
pub fn inspector_line(net: &[u8], sheet: &[u8]) -> String {
    match inspect(first(net, TABLE_BYTES), first(sheet, SHEET_BYTES)) {
        Ok(depth) => format!("accepted depth {depth}\n"),
        Err(refused) => refusal_line(refused),
    }
}

/// What the equations' program does when this is its standard input and this its first argument:
/// the text that it prints, and the table that it writes to the file of its second argument.
pub fn equations_listing(standard_input: &[u8], k: Option<&str>) -> (String, Option<Vec<u8>>) {
    // One byte more than a text may have, so that a longer one is noticed.
    let text = first(standard_input, TEXT_LIMIT + 1);
    match compile(text, digit(k), TABLE_ROOM) {
        Ok(table) => (listing(&table), Some(table)),
        Err(refused) => (refusal_line(refused), None),
    }
}

/// K, as one decimal digit. A missing argument or any other counts as 0.
fn digit(argument: Option<&str>) -> u64 {
    match argument.map(str::as_bytes) {
        Some([digit @ b'0'..=b'9']) => u64::from(digit - b'0'),
        _ => 0,
    }
}

fn first(bytes: &[u8], most: usize) -> &[u8] {
    &bytes[..bytes.len().min(most)]
}

fn refusal_line((number, place): Refused) -> String {
    format!("refused {number} at {place}\n")
}

fn lines(graph: &Graph) -> Vec<String> {
    let sheet = mapped(graph);
    let depths = depths(graph, &sheet.luts);
    let depth_at = |node: usize| depths[node].expect("it is an input or a root");
    let head = format!(
        "K {} inputs {} gates {} luts {} depth {}\n",
        graph.k(),
        graph.table.inputs,
        graph.gates().len(),
        sheet.luts.len(),
        sheet.depth
    );
    let luts = sheet.luts.iter().map(|lut| lut_line(lut, depth_at(lut.root)));
    let outputs = graph.table.outputs.iter();
    let outputs = outputs.map(|&node| format!("output {node} depth {}\n", depth_at(node)));
    [head].into_iter().chain(luts).chain(outputs).collect()
}

fn lut_line(lut: &Lut, depth: usize) -> String {
    let leaves: Vec<String> = lut.leaves.iter().map(usize::to_string).collect();
    let leaves = leaves.join(" ");
    format!("lut {} depth {depth} leaves {leaves} table {:016X}\n", lut.root, lut.rows)
}

#[cfg(test)]
mod tests {
    use super::*;
    use crate::drawings::named;
    use crate::random::{shapes, Random};
    use crate::sheet::map;
    use crate::table::{field, head_field, Gate, Table};

    #[test]
    fn the_listing_of_p1() {
        let by_hand = "\
K 3 inputs 4 gates 3 luts 3 depth 2
lut 4 depth 1 leaves 0 1 table 0000000000000008
lut 5 depth 1 leaves 2 3 table 0000000000000008
lut 6 depth 2 leaves 4 5 table 000000000000000E
output 6 depth 2
";
        assert_eq!(listing(&named("P1").bytes()), by_hand);
    }

    #[test]
    fn listings_of_the_paper() {
        let p2 = "K 4 inputs 4 gates 3 luts 1 depth 1\n\
                  lut 6 depth 1 leaves 0 1 2 3 table 000000000000F888\n\
                  output 6 depth 1\n";
        assert_eq!(listing(&named("P2").bytes()), p2);
        let p7 = "K 2 inputs 1 gates 0 luts 0 depth 0\noutput 0 depth 0\n";
        assert_eq!(listing(&named("P7").bytes()), p7);
        assert_eq!(listing(&named("P8").bytes()), "refused 7 at 1\n");
        assert_eq!(listing(&named("P9").bytes()), "refused 7 at 2\n");
        assert_eq!(listing(&[]), "refused 1 at 0\n");
    }

    /// Whoever evaluates cones by recursion without memory never comes to the end of this.
    #[test]
    fn a_chain_of_191_doubled_gates() {
        let gates = (0..191).map(|before| Gate { fanins: vec![before, before], rows: 0x8 });
        let table = Table { k: 2, inputs: 1, gates: gates.collect(), outputs: vec![191] };
        let text = "K 2 inputs 1 gates 191 luts 1 depth 1\n\
                    lut 191 depth 1 leaves 0 table 0000000000000002\n\
                    output 191 depth 1\n";
        assert_eq!(listing(&table.bytes()), text);
        let sheet = map(&table.bytes(), BUFFER_LIMIT).unwrap();
        assert_eq!(inspector_line(&table.bytes(), &sheet), "accepted depth 1\n");
    }

    #[test]
    fn outputs_stand_in_file_order() {
        let outputs = vec![6, 0, 4, 6];
        let table = Table { outputs, ..named("P1") };
        let text = listing(&table.bytes());
        let lines: Vec<&str> = text.lines().skip(4).collect();
        let by_hand =
            ["output 6 depth 2", "output 0 depth 0", "output 4 depth 1", "output 6 depth 2"];
        assert_eq!(lines, by_hand);
    }

    #[test]
    fn equations_are_listed_or_refused() {
        let mux = b"in a b s;\nf = a*!s + b*s;\nout f;\n";
        let by_hand = "K 3 inputs 3 gates 4 luts 1 depth 1\n\
                       lut 6 depth 1 leaves 0 1 2 table 00000000000000CA\n\
                       output 6 depth 1\n";
        let (printed, table) = equations_listing(mux, Some("3"));
        assert_eq!(printed, by_hand);
        assert_eq!(listing(&table.unwrap()), by_hand);
        for argument in [None, Some(""), Some("1"), Some("7"), Some("x"), Some("03"), Some("33")] {
            let refused = ("refused 43 at 0\n".to_string(), None);
            assert_eq!(equations_listing(mux, argument), refused);
            let refused = ("refused 41 at 0\n".to_string(), None);
            assert_eq!(equations_listing(b"", argument), refused);
        }
        let mut long = mux.to_vec();
        long.resize(TEXT_LIMIT, b' ');
        assert_eq!(equations_listing(&long, Some("3")).0, by_hand);
        long.resize(2 * TEXT_LIMIT, b' ');
        assert_eq!(equations_listing(&long, Some("3")).0, "refused 41 at 8192\n");
    }

    /// A line's words with every number read, hexadecimal after `table`.
    fn lut_of(line: &str) -> (Lut, usize) {
        let number = |word: &&str| word.parse::<usize>().unwrap();
        let words: Vec<&str> = line.split(' ').collect();
        let (leaves, table) = words[5..].split_at(words.len() - 7);
        assert_eq!([words[0], words[2], words[4], table[0]], ["lut", "depth", "leaves", "table"]);
        assert_eq!(table[1].len(), 16);
        let rows = u64::from_str_radix(table[1], 16).unwrap();
        let leaves = leaves.iter().map(number).collect();
        (Lut { root: number(&words[1]), leaves, rows }, number(&words[3]))
    }

    #[test]
    fn listings_say_what_the_sheets_say() {
        let mut random = Random::seeded(14);
        for _ in 0..300 {
            let nodes = random.between(1, 40);
            let graph = match Graph::new(shapes::any(nodes, &mut random)) {
                Ok(graph) => graph,
                Err(_) => continue,
            };
            let sheet = mapped(&graph);
            let text = listing(&graph.table.bytes());
            let lines: Vec<&str> = text.lines().collect();
            assert_eq!(lines.len(), 1 + sheet.luts.len() + graph.table.outputs.len());
            for (line, lut) in lines[1..].iter().zip(&sheet.luts) {
                let label = sheet.lines[lut.root - graph.table.inputs].label;
                assert_eq!(lut_of(line), (lut.clone(), label));
            }
        }
    }

    #[test]
    fn the_lines_of_the_inspectors_program() {
        let net = named("P1").bytes();
        let sheet = map(&net, BUFFER_LIMIT).unwrap();
        assert_eq!(inspector_line(&net, &sheet), "accepted depth 2\n");
        let mut false_sheet = sheet;
        false_sheet[31] = 1;
        assert_eq!(inspector_line(&net, &false_sheet), "refused 27 at 6\n");
        assert_eq!(inspector_line(&net, &[]), "refused 21 at 0\n");
        assert_eq!(inspector_line(&[], &[]), "refused 1 at 0\n");
    }

    /// The whole of such a field has a bad length; what the program reads of it is torn.
    #[test]
    fn only_the_first_bytes_are_read() {
        let zeros = [0; 49_152];
        let start = 7;
        let net = [head_field(2, 1, 1), field(2, &zeros[..4_096 - start - 2])].concat();
        assert_eq!(net.len(), 4_097);
        assert_eq!(Graph::read(&net).unwrap_err(), (3, start));
        assert_eq!(listing(&net), "refused 1 at 7\n");
        assert_eq!(inspector_line(&net, &[]), "refused 1 at 7\n");
        let p6 = named("P6").bytes();
        let start = 6;
        let sheet = [field(16, &[1, 1, 1]), field(17, &zeros[..49_152 - start - 2])].concat();
        assert_eq!(sheet.len(), 49_153);
        assert_eq!(inspect(&p6, &sheet), Err((23, start)));
        assert_eq!(inspector_line(&p6, &sheet), "refused 21 at 6\n");
        assert_eq!(inspector_line(&p6, &sheet[..49_152]), "refused 21 at 6\n");
    }

    #[test]
    fn bytes_after_the_end_are_extra_as_far_as_they_are_read() {
        let net = named("P7").bytes();
        let mut sheet = map(&net, BUFFER_LIMIT).unwrap();
        sheet.resize(SHEET_BYTES + 1, 0);
        assert_eq!(inspector_line(&net, &sheet), "refused 31 at 6\n");
    }
}
