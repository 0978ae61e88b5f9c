//! The host library from Rust: maps p1.net of this folder, inspects the sheet, makes the table of
//! mux.eq, and shows a refusal of each function. ../host/run builds it and runs it in the
//! repository's top folder.

use plover::{equations, inspect, map, Compiling, Inspection, Mapping, ROOM, TABLE_ROOM};
use std::{fs, io};

fn show_mapping(what: &str, reply: Mapping) {
    match reply {
        Mapping::Mapped(length) => println!("{what}: sheet bytes {length}"),
        Mapping::Refused(refusal) => println!("{what}: {refusal}"),
    }
}

fn show_inspection(what: &str, reply: Inspection) {
    match reply {
        Inspection::Accepted(depth) => println!("{what}: accepted depth {depth}"),
        Inspection::Refused(refusal) => println!("{what}: {refusal}"),
    }
}

fn show_compiling(what: &str, reply: Compiling) {
    match reply {
        Compiling::Compiled(length) => println!("{what}: table bytes {length}"),
        Compiling::Refused(refusal) => println!("{what}: {refusal}"),
    }
}

fn main() -> io::Result<()> {
    let table = fs::read("examples/p1.net")?;
    let mut buffer = vec![0; ROOM];
    let mapped = map(&table, &mut buffer);
    show_mapping("p1 mapped", mapped);
    if let Mapping::Mapped(length) = mapped {
        let sheet = &mut buffer[..length];
        show_inspection("its sheet inspected", inspect(&table, sheet));
        sheet[4] = 1; // the depth in the head
        show_inspection("with depth 1", inspect(&table, sheet));
    }
    let looped = fs::read("examples/p9.net")?;
    show_mapping("p9 mapped", map(&looped, &mut buffer));
    let text = fs::read("examples/mux.eq")?;
    let mut table = [0; TABLE_ROOM];
    let compiled = equations(&text, 3, &mut table);
    show_compiling("mux compiled", compiled);
    if let Compiling::Compiled(length) = compiled {
        show_mapping("its table mapped", map(&table[..length], &mut buffer));
    }
    show_compiling("at K 1", equations(&text, 1, &mut table));
    Ok(())
}
