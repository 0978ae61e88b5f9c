//! The edges of the grammar and of the other rules, each with its reply written down by hand from
//! the request.

use super::comparison::Outcome;
use second::equations::{NAME, NUMBERS, TEXT};
use second::table::{Gate, Table};
use second::{Refused, LOOP};

pub struct Edge {
    pub name: String,
    pub text: Vec<u8>,
    pub k: u64,
    /// With a buffer that is long enough.
    pub due: Outcome,
}

pub fn all() -> Vec<Edge> {
    let mut edges = Edges(Vec::new());
    first_statements(&mut edges);
    equations(&mut edges);
    last_statements(&mut edges);
    blanks(&mut edges);
    words(&mut edges);
    brackets(&mut edges);
    lengths(&mut edges);
    gates(&mut edges);
    names(&mut edges);
    numbers(&mut edges);
    loops(&mut edges);
    orders(&mut edges);
    edges.0
}

struct Edges(Vec<Edge>);

impl Edges {
    fn add(&mut self, text: &[u8], k: u64, due: Outcome) {
        let shown = text.escape_ascii().to_string();
        let name = format!("{} at K {k}", shown.chars().take(100).collect::<String>());
        self.0.push(Edge { name, text: text.to_vec(), k, due });
    }

    fn refused(&mut self, text: &str, refused: Refused) {
        self.add(text.as_bytes(), 3, Err(refused));
    }

    /// A text that is refused at its end, or at the place of the first `^`, which is left out.
    fn torn(&mut self, marked: &str) {
        let place = marked.find('^').unwrap_or(marked.len());
        self.refused(&marked.replacen('^', "", 1), (TEXT, place));
    }

    /// A text whose table has these gates and outputs.
    fn taken(&mut self, text: &str, inputs: usize, gates: &[(u64, &[usize])], outputs: &[usize]) {
        let gate = |&(rows, fanins): &(u64, &[usize])| Gate { fanins: fanins.to_vec(), rows };
        let gates = gates.iter().map(gate).collect();
        let table = Table { k: 3, inputs, gates, outputs: outputs.to_vec() };
        self.add(text.as_bytes(), 3, Ok(table.bytes()));
    }

    /// Texts, with a bar between them, that have this in the place of `?`: refused where the mark
    /// stands in it.
    fn torn_each(&mut self, texts: &str, part: &str) {
        for text in texts.split('|') {
            self.torn(&text.replacen('?', part, 1));
        }
    }
}

fn first_statements(edges: &mut Edges) {
    for text in
        ["", " ", "i", "in", "in ", "in a", "in a ", "in a;", "in a; ", "\r\n in\n a1 \n;\n"]
    {
        edges.torn(text);
    }
    for text in ["^#", "^a", "^out a;", "^;", "^1", "^n a;", "i^ n a;", "in^;", "in ^;", "in^#a"] {
        edges.torn(text);
    }
    for text in ["i^x a;out a;", "in^x a;out a;", "in^1 a;out a;", "^IN a;out a;", "i^N a;out a;"] {
        edges.torn(text);
    }
    for text in ["in a^,b;", "in a^=b;", "in a^*b;", "in a^(b);", "in ^1a;", "in a ^1;", "in ^!a;"]
    {
        edges.torn(text);
    }
    edges.taken("in a b c;out a;", 3, &[], &[0]);
    edges.taken("in a b c;out c a b b;", 3, &[], &[2, 0, 1, 1]);
}

fn equations(edges: &mut Edges) {
    for text in
        ["f", "f ", "f=", "f =", "f= ", "f=a", "f=a ", "f=!", "f=a*", "f=(", "f=(a", "f=(a)"]
    {
        edges.torn(&format!("in a;{text}"));
    }
    let wrong =
        "^;|^=a;|^1=a;|^!f=a;|^(f)=a;|f^;|f^*a;|f ^f=a;|f=^;|f=^=a;|f=^*a;|f=^+a;|f=^);|f=(^);|\
         f=^1;|f=a^!;|f=a^!a;|f=a ^a;|f=a^(a);|f=(a)^a;|f=(a)^(a);|f=a*^;|f=a+^*a;|f=a*^*a;|\
         f=!^;|f=!^*a;|f=!^);|f=(a^;|f=(a*^;|f=((a)^;|f=a^);|f=(a)^);|f=a^=a;|f=a^,a;|f=a;^;|\
         f=a^-a;|f=a^&a;|f=^0;|f=a^'a;|f=a^!=a;";
    for text in wrong.split('|') {
        edges.torn(&format!("in a;{text}out f;"));
    }
}

fn last_statements(edges: &mut Edges) {
    for text in ["o", "ou", "out", "out ", "out a", "out a ", "out a b"] {
        edges.torn(&format!("in a;{text}"));
    }
    let wrong =
        "out^;|out ^;|out ^1;|out a^=a;|out a^,a;|out a^*a;|out a;^out a;|out a;^a|out a;^;|\
         out a; ^f=a;|out a;^#|out a;^\t|out^(a);|out ^!a;";
    for text in wrong.split('|') {
        edges.torn(&format!("in a;{text}"));
    }
    // A name may begin as `out` does, and needs its `=` then.
    for text in ["OUT ^a;", "outa^;", "oute ^a;", "ou ^a;", "out1 ^a;", "Out^;"] {
        edges.torn(&format!("in a;{text}"));
    }
}

/// "Spaces and line ends may stand around any sign."
fn blanks(edges: &mut Edges) {
    let not = [(1, &[0][..])];
    let and = [(8, &[0, 1][..])];
    edges.taken("in a b;f=a*b;out f;", 2, &and, &[2]);
    let spread = " in  a b ; f = a * b ; out f ; ";
    edges.taken(spread, 2, &and, &[2]);
    edges.taken(&spread.replace(' ', "\n"), 2, &and, &[2]);
    edges.taken(&spread.replace(' ', "\r"), 2, &and, &[2]);
    edges.taken(&spread.replace(' ', "\r\n"), 2, &and, &[2]);
    edges.taken("in a;f=!a;out f;", 1, &not, &[1]);
    edges.taken("in\na;f=!\n\n(\r a\r\n);out\rf;\n", 1, &not, &[1]);
    // All on one line, or each on one of its own: line ends are blanks and no more.
    edges.taken("in\na\n;f\n=\na\n;out\nf\n;", 1, &[(2, &[0])], &[1]);
    let places =
        "?in a;f=a;out f;|in?a;f=a;out f;|in a?;f=a;out f;|in a;?f=a;out f;|in a;f?=a;out f;|\
         in a;f=?a;out f;|in a;f=a?;out f;|in a;f=a;out?f;|in a;f=a;out f?;|in a;f=a;out f;?";
    for odd in ["^\t", "^\x0B", "^\x0C", "^\0", "^\u{7F}", "^\u{A0}", "^_", "^\\", "^//", " ^\t"] {
        edges.torn_each(places, odd);
    }
    // The byte of a blank in another character set, by itself.
    for byte in [0x80, 0x85, 0xA0, 0xC3, 0xE4, 0xFF] {
        edges.add(&[b"in a", &[byte][..], b";out a;"].concat(), 3, Err((TEXT, 4)));
    }
    // A blank cuts a word in two.
    for text in ["i^ n a;out a;", "in a;o ^ut a;", "in a b;f=a ^b;out f;", "in a;ou ^t a;"] {
        edges.torn(text);
    }
}

/// Names, and the words `in` and `out` in their places.
fn words(edges: &mut Edges) {
    for keyword in ["in^", "in^ "] {
        let places = "in ?;out a;|in a;?=a;out a;|in a;f=?;out a;|in a;f=!(a*?);out a;|in a;out ?;";
        edges.torn_each(places, keyword);
    }
    for keyword in ["out^", "out^\n"] {
        edges.torn_each("in ?;out a;|in a;f=?;out a;|in a;f=a+?;|in a;out a ?;", keyword);
    }
    // `in` begins no second list, and `out` no equation.
    for text in ["in a;in^ b;out a;", "in a;out ^=a;", "in a;out^=a;out a;", "in a;out a^=a;"] {
        edges.torn(text);
    }
    for text in ["in in", "in a;in", "in a;f=in", "in a;f=out", "in a;out in", "in a;out out"] {
        edges.torn(text);
    }
    for name in "inx in1 outer out0 IN In iN OUT oUT i n o ou ino inout Abcdefghijklmno9".split(' ')
    {
        edges.taken(&format!("in {name};out {name};"), 1, &[], &[0]);
        edges.taken(&format!("in a;{name}=a;out {name};"), 1, &[(2, &[0])], &[1]);
        edges.taken(&format!("in {name};f=!{name};out f;"), 1, &[(1, &[0])], &[1]);
    }
    for longer in ["Abcdefghijklmno9^0", "inabcdefghijklmn^o", "a234567890123456^ABCDEF"] {
        edges.torn_each("in ?;|in a;?=a;out a;|in a;f=(?);out a;|in a;out ?;", longer);
    }
    // Names are the same only byte for byte.
    edges.taken("in a A a1 a11;f=A*a11;out a1 f;", 4, &[(8, &[1, 3])], &[2, 4]);
    let (one, other) = ("abcdefghijklmnop", "abcdefghijklmnoq");
    let text = format!("in {one} {other};f={other};out f {one};");
    edges.taken(&text, 2, &[(2, &[1])], &[2, 0]);
}

/// "An expression may hold a bracketed expression, to a nesting of 32."
fn brackets(edges: &mut Edges) {
    let nested = |open: &str, count: usize, mark: &str| {
        let (before, close) = (open.repeat(count - 1), ")".repeat(count));
        format!("{before}{mark}{open}a{close}")
    };
    let passed = [(2, &[0][..])];
    edges.taken(&format!("in a;f={};out f;", nested("(", 32, "")), 1, &passed, &[1]);
    edges.taken(&format!("in a;f={};out f;", nested(" ( ", 32, "")), 1, &passed, &[1]);
    edges.torn(&format!("in a;f={};out f;", nested("(", 33, "^")));
    edges.torn(&format!("in a;f=a+{};out f;", nested("(", 33, "^")));
    edges.torn(&format!("in a;f={};out f;", nested("\n(", 33, "").replacen("(a", "^(a", 1)));
    edges.torn(&format!("in a;f={};g={};out f;", nested("(", 32, ""), nested("(", 33, "^")));
    edges.torn(&format!("in a;f={}*{};out f;", nested("(", 32, ""), nested("(", 33, "^")));
    let twice = format!("in a;f={0}*{0};g={0};out f;", nested("(", 32, ""));
    edges.taken(&twice, 1, &[(8, &[0, 0]), (2, &[0])], &[1]);
    let inside = format!("{}a{}", "(a*".repeat(32), ")".repeat(32));
    let mut gates: Vec<(u64, Vec<usize>)> = vec![(8, vec![0, 0])];
    gates.extend((1..32).map(|gate| (8, vec![0, gate])));
    let gates: Vec<(u64, &[usize])> = gates.iter().map(|(rows, ids)| (*rows, &ids[..])).collect();
    edges.taken(&format!("in a;f={inside};out f;"), 1, &gates, &[32]);
    // `!` does not nest.
    let signs: Vec<usize> = (0..100).collect();
    let gates: Vec<(u64, &[usize])> =
        signs.iter().map(|gate| (1, std::slice::from_ref(gate))).collect();
    edges.taken(&format!("in a;f={}a;out f;", "!".repeat(100)), 1, &gates, &[100]);
    edges.torn(&format!("in a;f={}", "(".repeat(32)));
    edges.torn(&format!("in a;f={}a{}^;", "(".repeat(32), ")".repeat(31)));
    edges.torn(&format!("in a;f={}a{}^);", "(".repeat(32), ")".repeat(32)));
}

/// "A text has at most 8,192 bytes."
fn lengths(edges: &mut Edges) {
    let filled = |text: &str, length: usize| format!("{}{text}", " ".repeat(length - text.len()));
    edges.taken(&filled("in a;out a;", 8_192), 1, &[], &[0]);
    edges.taken(&format!("in a;out a;{}", "\n".repeat(8_181)), 1, &[], &[0]);
    edges.refused(&filled("in a;out a;", 8_193), (TEXT, 8_192));
    edges.refused(&format!("in a;out a;{}", "\n".repeat(8_182)), (TEXT, 8_192));
    edges.refused(&filled("in a;out a;", 70_000), (TEXT, 8_192));
    // The fault first and last. Completions may be as long as they like.
    edges.refused(&format!("#{}", filled("in a;out a;", 8_191)), (TEXT, 0));
    edges.refused(&format!("#{}", filled("in a;out a;", 8_192)), (TEXT, 8_192));
    edges.refused(&filled("in a;out a;#", 8_192), (TEXT, 8_191));
    edges.refused(&filled("in a;out a;#", 8_193), (TEXT, 8_192));
    edges.refused(&filled("in a;out a", 8_192), (TEXT, 8_192));
    edges.refused(&filled("in a;out a", 8_193), (TEXT, 8_192));
    edges.refused(&filled("in a;f=((((", 8_192), (TEXT, 8_192));
    edges.refused(&filled("", 8_192), (TEXT, 8_192));
    edges.refused(&filled("in a;out b;", 8_192), (NAME, 8_190));
    edges.refused(&"#".repeat(100_000), (TEXT, 8_192));
    edges.add(&[0; 8_192], 3, Err((TEXT, 0)));
    edges.add(&[255; 8_193], 3, Err((TEXT, 8_192)));
    // Names and numbers as far as they go in 8,192 bytes.
    edges.refused(&format!("in a;f={}a;out f;", "!".repeat(8_177)), (NUMBERS, 0));
    edges.refused(&format!("in a;f=a{};out f;", "*a".repeat(4_088)), (NUMBERS, 0));
    edges.refused(&format!("in a;out{};", " a".repeat(4_091)), (NUMBERS, 0));
    edges.refused(&format!("in{};out a;", " a".repeat(4_091)), (NAME, 5));
}

/// "Each operator becomes one gate, left to right, innermost first."
fn gates(edges: &mut Edges) {
    let mut expression = |text: &str, gates: &[(u64, &[usize])]| {
        let last = 3 + gates.len();
        edges.taken(&format!("in a b c d;f={text};out f;"), 4, gates, &[last]);
    };
    expression("a", &[(2, &[0])]);
    expression("((d))", &[(2, &[3])]);
    expression("!a", &[(1, &[0])]);
    expression("!!a", &[(1, &[0]), (1, &[4])]);
    expression("!(!a)", &[(1, &[0]), (1, &[4])]);
    expression("a*b", &[(8, &[0, 1])]);
    expression("b*a", &[(8, &[1, 0])]);
    expression("a+b", &[(14, &[0, 1])]);
    expression("a*a", &[(8, &[0, 0])]);
    expression("a+b*c", &[(8, &[1, 2]), (14, &[0, 4])]);
    expression("a*b+c", &[(8, &[0, 1]), (14, &[4, 2])]);
    expression("a*(b+c)", &[(14, &[1, 2]), (8, &[0, 4])]);
    expression("(a+b)*c", &[(14, &[0, 1]), (8, &[4, 2])]);
    expression("a+b+c", &[(14, &[0, 1]), (14, &[4, 2])]);
    expression("a*b*c*d", &[(8, &[0, 1]), (8, &[4, 2]), (8, &[5, 3])]);
    expression("a+(b+c)", &[(14, &[1, 2]), (14, &[0, 4])]);
    expression("a*(b*(c*d))", &[(8, &[2, 3]), (8, &[1, 4]), (8, &[0, 5])]);
    expression("!a*b", &[(1, &[0]), (8, &[4, 1])]);
    expression("a*!b", &[(1, &[1]), (8, &[0, 4])]);
    expression("!(a*b)+c", &[(8, &[0, 1]), (1, &[4]), (14, &[5, 2])]);
    expression("!a+!b", &[(1, &[0]), (1, &[1]), (14, &[4, 5])]);
    expression("a*b+c*d", &[(8, &[0, 1]), (8, &[2, 3]), (14, &[4, 5])]);
    expression("(a+b)*(c+d)", &[(14, &[0, 1]), (14, &[2, 3]), (8, &[4, 5])]);
    expression("a+b*c+d", &[(8, &[1, 2]), (14, &[0, 4]), (14, &[5, 3])]);
    // Names before they are defined, a name that only passes on, outputs again.
    let text = "in a b;f=g+h;g=a*b;h=!g;out h f h a;";
    edges.taken(text, 2, &[(14, &[3, 4]), (8, &[0, 1]), (1, &[3])], &[4, 2, 4, 0]);
    let text = "in a;f=g*!g;g=h;h=!!a;out g;";
    let due: [(u64, &[usize]); 5] = [(1, &[3]), (8, &[3, 1]), (2, &[5]), (1, &[0]), (1, &[4])];
    edges.taken(text, 1, &due, &[3]);
}

/// "Name used but nowhere defined, or defined again (inputs included), at the first byte of the
/// earliest such place."
fn names(edges: &mut Edges) {
    let cases = [
        ("in a;out b;", 9),
        ("in a;out a bb;", 11),
        ("in a;f=b;out a;", 7),
        ("in a;f=a*(a+!b);out f;", 13),
        ("in a;f=a;out F;", 13),
        ("in a;out aa;", 9),
        ("in aa;out a;", 10),
        ("in a a;out a;", 5),
        ("in a b a;out b;", 7),
        ("in a a a;out a;", 5),
        ("in a;a=a;out a;", 5),
        ("in a;f=a;f=a;out f;", 9),
        ("in a;f=a;f=!a;f=a;out f;", 9),
        ("in a; f = a ;\n a = f; out f;", 15),
        // The earliest of both kinds.
        ("in a a;f=b;out c;", 5),
        ("in a;f=b;f=a;out f;", 7),
        ("in a;f=a;f=b;out f;", 9),
        ("in a;f=a;g=b;f=a;out f;", 11),
        ("in a;b=c;b=a;out d;", 7),
        // Nothing is defined by being used, and a use in its own equation is one.
        ("in a;f=g;g=h;out f;", 11),
        ("in a;f=f*b;out f;", 9),
    ];
    for (text, place) in cases {
        edges.refused(text, (NAME, place));
    }
    edges.refused(&format!("in{};out a;", " ab a".repeat(2)), (NAME, 8));
}

fn listed(count: usize) -> String {
    (0..count).map(|name| format!(" a{name}")).collect()
}

/// "K, inputs, nodes or outputs outside 01's numbers, at 0."
fn numbers(edges: &mut Edges) {
    for k in [0, 1, 7, 8, 9, 255, 256, 258, 259, 65_538, 1 << 32, (1 << 32) + 3, u64::MAX] {
        edges.add(b"in a;out a;", k, Err((NUMBERS, 0)));
    }
    for k in 2..=6 {
        let table = Table { k, inputs: 1, gates: Vec::new(), outputs: vec![0] };
        edges.add(b"in a;out a;", k as u64, Ok(table.bytes()));
    }
    edges.taken(&format!("in{};out a63;", listed(64)), 64, &[], &[63]);
    edges.refused(&format!("in{};out a0;", listed(65)), (NUMBERS, 0));
    edges.refused(&format!("in{};out a255;", listed(256)), (NUMBERS, 0));
    edges.refused(&format!("in{};out a256;", listed(257)), (NUMBERS, 0));
    edges.taken(&format!("in a;out{};", " a".repeat(64)), 1, &[], &[0; 64]);
    edges.refused(&format!("in a;out{};", " a".repeat(65)), (NUMBERS, 0));
    edges.refused(&format!("in a;out{};", " a".repeat(257)), (NUMBERS, 0));
    let signs = |inputs: usize, count: usize| {
        format!("in{};f={}a0;out f;", listed(inputs), "!".repeat(count))
    };
    let chain = |inputs: usize, count: usize| -> Vec<Vec<usize>> {
        (0..count).map(|gate| vec![if gate == 0 { 0 } else { inputs + gate - 1 }]).collect()
    };
    for (inputs, most) in [(1, 191), (2, 190), (64, 128)] {
        let fanins = chain(inputs, most);
        let gates: Vec<(u64, &[usize])> = fanins.iter().map(|ids| (1, &ids[..])).collect();
        edges.taken(&signs(inputs, most), inputs, &gates, &[191]);
        edges.refused(&signs(inputs, most + 1), (NUMBERS, 0));
    }
    edges.refused(&signs(1, 255), (NUMBERS, 0));
    edges.refused(&signs(1, 256), (NUMBERS, 0));
    edges.refused(&signs(1, 257), (NUMBERS, 0));
    // An equation with no operator is a node as well.
    let passing = |count: usize| -> String {
        let equations: String = (0..count).map(|at| format!("f{at}=a;")).collect();
        format!("in a;{equations}out a;")
    };
    edges.taken(&passing(191), 1, &[(2, &[0][..]); 191], &[0]);
    edges.refused(&passing(192), (NUMBERS, 0));
    // The longest table: 191 gates of two fanins and 64 outputs.
    let text = format!("in a;f=a{};out{};", "*a".repeat(191), " f".repeat(64));
    let fanins: Vec<Vec<usize>> = (0..191).map(|gate| vec![gate, 0]).collect();
    let gates: Vec<(u64, &[usize])> = fanins.iter().map(|ids| (8, &ids[..])).collect();
    edges.taken(&text, 1, &gates, &[191; 64]);
}

/// The lowest gate that leads back to itself, behind an output or not.
fn loops(edges: &mut Edges) {
    let cases = [
        ("in a;f=f;out a;", 1),
        ("in a;f=f;out f;", 1),
        ("in a;f=a*f;out f;", 1),
        ("in a;f=!h;g=!h;h=!g;out h;", 2),
        ("in a;f=!h;g=!h;h=!g;out a;", 2),
        ("in a;f=g;g=f;out a;", 1),
        ("in a;f=a;g=a;h=g+h;out f;", 3),
        ("in a b;f=!(b+g);g=!(a+f);out f;", 2),
        ("in a;f=a*a+!f;out f;", 2),
        ("in a;f=a+g;g=h;h=g;out f;", 2),
        // Two loops; the second begins behind gates that are only downstream of the first.
        ("in a;x=f+a;f=f*a;g=g+f;out x;", 2),
    ];
    for (text, gate) in cases {
        edges.refused(text, (LOOP, gate));
    }
}

/// A text with all faults of later rules gets the number of the first.
fn orders(edges: &mut Edges) {
    let many = listed(65);
    edges.add(format!("in{many};f=b*f;out f;#").as_bytes(), 9, Err((TEXT, 2 + many.len() + 13)));
    edges.add(format!("in{many};f=b*f;out f;").as_bytes(), 9, Err((NAME, 2 + many.len() + 3)));
    edges.add(format!("in{many};f=f;out f;").as_bytes(), 3, Err((NUMBERS, 0)));
    edges.add(b"in a;f=b*f;out f;", 9, Err((NAME, 7)));
    edges.add(b"in a;f=a*f;out f;", 9, Err((NUMBERS, 0)));
    edges.add(b"in a;f=a*f;out f;", 6, Err((LOOP, 1)));
    edges.add(&[b' '; 9_000], 9, Err((TEXT, 8_192)));
    edges.add(b"", 0, Err((TEXT, 0)));
}
