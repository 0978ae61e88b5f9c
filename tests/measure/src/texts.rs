//! Texts of equations that cost much, all of 8,192 bytes: nothing longer is read.
//!
//! What grows faster than a text is the search for names: each definition is compared with those
//! before it and each use with all, letter by letter up to the first difference. D definitions of
//! two letters and uses of one have 3 and 2 bytes: that makes most words at D = 2,048, which is 4.2
//! million. Three letters of which the first is everybody's, so that two are looked at, make most
//! bytes, at D = 1,365: 2.8 million words, 5.6 million bytes. Longer names that share more are
//! fewer, and cost less.

use crate::drawings::Named;
use second::equations::TEXT_LIMIT;

const FIRST: &[u8] = b"abcdefghijklmnopqrstuvwxyzABCDEFGHIJKLMNOPQRSTUVWXYZ";
const OTHERS: &[u8] = b"0123456789ABCDEFGHIJKLMNOPQRSTUVWXYZabcdefghijklmnopqrstuvwxyz";

/// The texts, each with the number of its reply.
fn numbered() -> Vec<(Named, u32)> {
    let with = |names: Vec<String>, last: &str| [names, vec![last.to_string()]].concat();
    let last = |names: Vec<String>| names.last().cloned().unwrap_or_default();
    let sixteen = shared("fourteenletter", 480);
    let nested = format!("{}a{}+", "(".repeat(32), ")".repeat(32));
    vec![
        (listed("two letters, uses of the last", &with(two_letters(2_040), "z"), "z"), 43),
        (listed("two letters, uses of none", &two_letters(2_040), "z"), 42),
        (listed("three letters, uses of the last", &with(shared("b", 1_365), "b"), "b"), 43),
        (listed("three letters, uses of none", &shared("b", 1_365), "b"), 42),
        (listed("three letters, one use", &shared("b", 2_040), "b00"), 43),
        (listed("sixteen letters", &sixteen, &last(sixteen.clone())), 43),
        (equations("equations", &two_letters(1_634)), 43),
        (equations("equations that begin alike", &shared("z", 1_362)), 43),
        (listed("one name again and again", &vec!["a".to_string(); 4_089], "a"), 42),
        (listed("one name used again and again", &["a".to_string()], "a"), 43),
        (expression("signs", "!"), 43),
        (expression("brackets", &nested), 0),
        (largest(), 0),
        (filled("blanks", String::new()), 41),
    ]
}

pub fn all() -> Vec<Named> {
    numbered().into_iter().map(|(text, _)| text).collect()
}

/// The text of a name.
pub fn find(name: &str) -> Option<Named> {
    all().into_iter().find(|text| text.name == name)
}

/// Blanks behind, up to the full length.
fn filled(name: &str, mut text: String) -> Named {
    assert!(text.len() <= TEXT_LIMIT, "{name}: {}", text.len());
    text.extend(std::iter::repeat(' ').take(TEXT_LIMIT - text.len()));
    Named { name: name.to_string(), bytes: text.into_bytes() }
}

/// The text before, then the part again and again as long as there is room, then the text behind.
fn repeated(name: &str, before: &str, part: &str, behind: &str) -> Named {
    let times = (TEXT_LIMIT - before.len() - behind.len()) / part.len();
    filled(name, format!("{before}{}{behind}", part.repeat(times)))
}

/// These inputs, and this output as often as there is room.
fn listed(name: &str, inputs: &[String], output: &str) -> Named {
    repeated(name, &format!("in {};out", inputs.join(" ")), &format!(" {output}"), ";")
}

fn two_letters(count: usize) -> Vec<String> {
    let names = FIRST.iter().flat_map(|&first| {
        OTHERS.iter().map(move |&other| [first, other].map(char::from).iter().collect())
    });
    names.filter(|name: &String| name != "in").take(count).collect()
}

/// Names that begin alike, with two more letters or digits.
fn shared(start: &str, count: usize) -> Vec<String> {
    let ends = OTHERS.iter().flat_map(|&one| OTHERS.iter().map(move |&other| [one, other]));
    let name = |end: [u8; 2]| format!("{start}{}{}", char::from(end[0]), char::from(end[1]));
    ends.map(name).take(count).collect()
}

/// Equations of these names and a use of one letter, which is defined last.
fn equations(name: &str, names: &[String]) -> Named {
    let equations: String = names.iter().map(|name| format!("{name}=z;")).collect();
    filled(name, format!("in a;{equations}z=a;out z;"))
}

fn expression(name: &str, part: &str) -> Named {
    repeated(name, "in a;f=", part, "a;out f;")
}

/// A table is written and taken: 140 gates over names of sixteen letters that begin alike, each of
/// which is used before it is defined.
fn largest() -> Named {
    let names = shared("fourteenletter", 140);
    let before = |at: usize| names.get(at + 1).map_or("a", String::as_str);
    let equations = names.iter().enumerate();
    let equations: String =
        equations.map(|(at, name)| format!("{name}={}*{};", before(at), before(at))).collect();
    repeated("a table", &format!("in a;{equations}out"), &format!(" {}", names[0]), ";")
}

#[cfg(test)]
mod tests {
    use super::*;
    use crate::subject::K;
    use second::equations::{compile, TABLE_ROOM};
    use std::collections::HashSet;

    #[test]
    fn each_name_is_one_text_of_full_length() {
        let names: HashSet<String> = all().into_iter().map(|text| text.name).collect();
        assert_eq!(names.len(), all().len());
        assert!(all().iter().all(|text| text.bytes.len() == TEXT_LIMIT));
    }

    #[test]
    fn each_has_its_reply() {
        for (Named { name, bytes }, due) in numbered() {
            let number = compile(&bytes, K, TABLE_ROOM).map_or_else(|(number, _)| number, |_| 0);
            assert_eq!(number, due, "{name}");
        }
    }
}
