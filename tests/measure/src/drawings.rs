//! The drawings that are measured, all of full size.

use plain::shapes::{ten, Shape};
use plain::table::{write, NODE_LIMIT};
use plain::Drawing;

/// A gate table as bytes, or a text of equations, and what the tables call it.
#[derive(Clone)]
pub struct Named {
    pub name: String,
    pub bytes: Vec<u8>,
}

fn named(name: String, drawing: &Drawing) -> Named {
    Named { name, bytes: write(drawing) }
}

/// Ten drawings of the shapes that members draw.
pub fn usual() -> Vec<Named> {
    ten(NODE_LIMIT).into_iter().map(|(name, drawing)| named(name, &drawing)).collect()
}

/// Drawings that make the sweeps of the search many.
pub fn ladders() -> Vec<Named> {
    shaped(&[(Shape::Undone, 2), (Shape::Zigzag, 3)])
}

/// Drawings that blow up a careless program, forwards and with their gates numbered backwards.
pub fn careless() -> Vec<Named> {
    let kinds =
        [Shape::Doubled, Shape::SameTwo, Shape::Diamonds].map(|shape| [(shape, 2), (shape, 6)]);
    let forwards = shaped(&kinds.concat());
    let backwards = kinds.map(|[(shape, k), _]| {
        named(format!("{shape:?} K {k} backwards"), &shape.drawing(NODE_LIMIT, k).backwards())
    });
    forwards.into_iter().chain(backwards).collect()
}

fn shaped(kinds: &[(Shape, usize)]) -> Vec<Named> {
    let kinds = kinds.iter();
    kinds
        .map(|&(shape, k)| named(format!("{shape:?} K {k}"), &shape.drawing(NODE_LIMIT, k)))
        .collect()
}

/// All of them.
pub fn all() -> Vec<Named> {
    [usual(), ladders(), careless()].concat()
}

/// The drawing of a name.
pub fn find(name: &str) -> Option<Named> {
    all().into_iter().find(|drawing| drawing.name == name)
}

#[cfg(test)]
mod tests {
    use super::*;
    use second::table::read;
    use std::collections::HashSet;

    #[test]
    fn each_name_is_one_drawing_of_full_size() {
        let names: HashSet<String> = all().into_iter().map(|drawing| drawing.name).collect();
        assert_eq!(names.len(), all().len());
        for Named { name, bytes } in all() {
            let read = read(&bytes).table().expect("it is a table");
            assert_eq!(read.inputs + read.gates.len(), NODE_LIMIT, "{name}");
        }
    }
}
