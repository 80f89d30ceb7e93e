//! The header and this crate agree: a C program says what the compiler makes of
//! `fir.h`, number by number.

use library::{Kept, State, Store};
use std::collections::BTreeMap;
use std::fmt::Write;
use std::fs;
use std::mem::offset_of;
use std::path::{Path, PathBuf};
use std::process::Command;

/// The header.
const HEADER: &str = concat!(env!("CARGO_MANIFEST_DIR"), "/../../include/fir.h");

/// The fields of a state, in order.
const FIELDS: [&str; 15] = [
    "numbers", "items", "caches", "result", "value", "tags", "places", "stack", "promises",
    "lengths", "calls", "depth", "status", "length", "spare",
];

/// A name and its number in Rust.
macro_rules! named {
    ($($name:ident),* $(,)?) => {
        [$((stringify!($name), library::$name as usize)),*]
    };
}

/// The bounds and the questions of this crate.
fn bounds_and_questions() -> Vec<(&'static str, usize)> {
    let bounds = named![
        FIR_INTERFACE,
        FIR_STATE_LAYOUT,
        FIR_QUESTION_TEXT_BYTES,
        FIR_ANSWER_TEXT_BYTES,
        FIR_REPORT_BYTES,
        FIR_IMAGE_BYTES,
        FIR_FUNCTIONS,
        FIR_VERSIONS,
        FIR_REGISTERS,
        FIR_NAMES,
        FIR_ACTIVATIONS,
        FIR_ITEMS,
        FIR_PLACES,
        FIR_STRIDE,
        FIR_TRAIL_NUMBERS,
        FIR_TRAIL_BYTES,
        FIR_RUNS,
        FIR_PORTAL,
        FIR_STAFF,
        FIR_FACTORY,
        FIR_ROWS,
        FIR_LARGE,
        FIR_NONE,
    ];
    let questions = named![
        FIR_ACCEPTED,
        FIR_REFUSED_SIZE,
        FIR_REFUSED_RECORDS,
        FIR_REFUSED_KINDS,
        FIR_REFUSED_BOUNDS,
        FIR_REFUSED_NUMBERING,
        FIR_REFUSED_TYPE_BYTES,
        FIR_REFUSED_EXISTENCE,
        FIR_REFUSED_SKIPS,
        FIR_REFUSED_TYPES,
        FIR_REFUSED_CALLS,
        FIR_REFUSED_EFFECTS,
        FIR_REFUSED_FLOW,
        FIR_REFUSED_ENTRY,
        FIR_REFUSED_LEVEL,
        FIR_REFUSED_ARGUMENTS,
        FIR_REFUSED_BUFFER,
        FIR_REFUSED_CHANGE,
        FIR_REFUSED_LITERAL,
        FIR_REFUSED_ROOM,
        FIR_REFUSED_BACK,
        FIR_REFUSED_POOL,
        FIR_REFUSED_ROWS,
        FIR_REFUSED_JOIN,
    ];
    [&bounds[..], &questions].concat()
}

/// All constants of this crate.
fn constants() -> Vec<(&'static str, usize)> {
    let answers = named![
        FIR_STEPS,
        FIR_INTEGER,
        FIR_VECTOR,
        FIR_UNDEF,
        FIR_DEEP,
        FIR_VECTORS,
        FIR_PROMISES,
        FIR_STUCK,
        FIR_REFUSED,
        FIR_LOADED,
        FIR_SHORT,
        FIR_NOTHING,
        FIR_IS_INTEGER,
        FIR_IS_VECTOR,
        FIR_IS_PROMISE,
        FIR_OUTSIDE,
        FIR_NOWHERE,
        FIR_AT_INSTRUCTION,
        FIR_AT_BLOCK_END,
        FIR_FORM_64,
        FIR_FORM_32,
        FIR_FIRST_IMAGE,
        FIR_SECOND_IMAGE,
        FIR_NOT_SOUGHT,
        FIR_MENDED,
        FIR_NOT_MENDED,
    ];
    [&bounds_and_questions()[..], &answers].concat()
}

/// A folder of this test's own.
fn folder() -> PathBuf {
    let folder = Path::new(env!("CARGO_TARGET_TMPDIR")).join("header");
    fs::create_dir_all(&folder).expect("a folder is made");
    folder
}

/// What a C program prints that is compiled with the header: lines of a name
/// and a number.
fn printed(statements: &str) -> BTreeMap<String, usize> {
    let source = format!(
        "#include <stdio.h>\n#include \"{HEADER}\"\n\
         #define SAY(name, number) printf(\"%s %zu\\n\", name, (size_t)(number))\n\
         int main(void) {{\n{statements}return 0;\n}}\n"
    );
    let name = format!("{:?}", std::thread::current().id()).replace(['(', ')'], "");
    let (file, program) = (folder().join(format!("{name}.c")), folder().join(&name));
    fs::write(&file, source).expect("the program is written");
    let compiler = Command::new("cc")
        .args(["-std=c99", "-Wall", "-Wextra", "-pedantic", "-Werror", "-o"])
        .args([&program, &file])
        .output()
        .expect("cc starts");
    let said = String::from_utf8_lossy(&compiler.stderr);
    assert!(compiler.status.success(), "{said}");
    let output = Command::new(program).output().expect("the program starts");
    let text = String::from_utf8(output.stdout).expect("plain text");
    let entry = |line: &str| {
        let (name, number) = line.split_once(' ').expect("a name and a number");
        (name.to_string(), number.parse().expect("a number"))
    };
    text.lines().map(entry).collect()
}

/// Statements that print the size and the offset of each field.
fn field_statements() -> String {
    let mut statements = String::new();
    for field in FIELDS {
        writeln!(
            statements,
            "SAY(\"offset_of_{field}\", offsetof(fir_state, {field}));\n\
             SAY(\"size_of_{field}\", sizeof(((fir_state *)0)->{field}));"
        )
        .expect("a string takes all");
    }
    statements
}

/// The offset and the size of each field in Rust.
macro_rules! placed {
    ($state:ident, $($field:ident),*) => {
        [$((stringify!($field), offset_of!(State, $field), size_of_val(&$state.$field))),*]
    };
}

#[test]
fn the_fields_of_a_state_stand_where_c_puts_them() {
    let found = printed(&field_statements());
    let state = State::blank();
    let own = placed!(
        state, numbers, items, caches, result, value, tags, places, stack, promises, lengths,
        calls, depth, status, length, spare
    );
    assert_eq!(own.map(|(field, ..)| field), FIELDS);
    for (field, offset, size) in own {
        assert_eq!(found[&format!("offset_of_{field}")], offset, "{field}");
        assert_eq!(found[&format!("size_of_{field}")], size, "{field}");
    }
}

#[test]
fn a_state_has_the_size_and_alignment_that_c_gives_it() {
    let found = printed(
        "struct probe { char first; fir_state state; };\n\
         SAY(\"size\", sizeof(fir_state));\n\
         SAY(\"alignment\", offsetof(struct probe, state));\n",
    );
    assert_eq!(found["size"], size_of::<State>());
    assert_eq!(found["alignment"], align_of::<State>());
}

#[test]
fn a_trail_is_laid_out_as_c_does_it_and_begins_as_a_state() {
    let found = printed(
        "SAY(\"numbers\", offsetof(fir_trail, numbers));\n\
         SAY(\"bytes\", offsetof(fir_trail, bytes));\n\
         SAY(\"steps\", offsetof(fir_trail, steps));\n\
         SAY(\"past\", offsetof(fir_trail, past));\n\
         SAY(\"size\", sizeof(fir_trail));\n",
    );
    let own = [
        ("numbers", offset_of!(Kept, numbers)),
        ("bytes", offset_of!(Kept, bytes)),
        ("steps", offset_of!(Kept, steps)),
        ("past", offset_of!(Kept, past)),
        ("size", size_of::<Kept>()),
    ];
    for (name, number) in own {
        assert_eq!(found[name], number, "{name}");
    }
    assert_eq!(offset_of!(Kept, bytes), offset_of!(State, tags));
    assert_eq!(offset_of!(Kept, steps), size_of::<State>());
}

#[test]
fn a_pool_is_laid_out_as_c_does_it() {
    let found = printed(
        "SAY(\"reserves\", offsetof(fir_pool, reserves));\n\
         SAY(\"has\", offsetof(fir_pool, has));\n\
         SAY(\"size\", sizeof(fir_pool));\n",
    );
    assert_eq!(found["reserves"], offset_of!(Store, reserves));
    assert_eq!(found["has"], offset_of!(Store, has));
    assert_eq!(found["size"], size_of::<Store>());
}

#[test]
fn a_table_has_the_bytes_that_c_gives_it() {
    let lengths = [0, 5, 6, 23, 32_767, 32_768];
    let statement = |length| format!("SAY(\"{length}\", FIR_TABLE_BYTES({length}));\n");
    let found = printed(&lengths.map(statement).concat());
    for length in lengths {
        let bytes = found[&length.to_string()];
        assert_eq!(bytes, library::table_size(length), "{length}");
    }
    assert_eq!(found["32768"], 45_992);
    assert_eq!(library::table_size(32_769), 45_992);
    assert_eq!(library::table_size(usize::MAX), 45_992);
}

#[test]
fn every_constant_of_the_header_has_its_number_here() {
    let header = fs::read_to_string(HEADER).expect("the header is there");
    let defined = header.lines().filter_map(|line| {
        let mut words = line.strip_prefix("#define ")?.split_whitespace();
        let (name, number) = (words.next()?, words.next()?);
        let number = number.strip_suffix("ULL").unwrap_or(number);
        number.parse::<usize>().is_ok().then_some(name)
    });
    let defined: Vec<&str> = defined.collect();
    let own = constants();
    assert_eq!(own.len(), defined.len(), "one constant for each");
    let statements: String = defined
        .iter()
        .map(|name| format!("SAY(\"{name}\", {name});\n"))
        .collect();
    let found = printed(&statements);
    for (name, number) in own {
        assert_eq!(found.get(name), Some(&number), "{name}");
    }
}
