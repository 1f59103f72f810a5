//! What the files of `sys` and the C header declare is what the library has: the
//! same parameters in the same order, with tables of the same lengths. The compiler
//! cannot see this across languages. And it is what `c/interface.txt` has for
//! the version in which the names end, so that none changes without the other.

mod common;

use std::collections::HashMap;
use std::fs;

use common::root;

/// Names of types and constants, and what they stand for.
type Names = HashMap<String, String>;

const LIBRARIES: &[&str] = &[
    "parallel_moves_c",
    "calls_c",
    "asking_c",
    "groups_c",
    "answer_groups_c",
    "frame_c",
    "job_writer_c",
    "price_c",
    "trying_c",
    "examine_c",
];

const FUNCTIONS: &[&str] = &[
    "parallel_moves_open",
    "parallel_moves_resolve",
    "parallel_moves_made",
    "parallel_moves_answer",
    "parallel_moves_text",
    "parallel_moves_enough_slots",
    "parallel_moves_write",
    "parallel_moves_price",
    "parallel_moves_price_edits",
    "parallel_moves_cheaper",
    "parallel_moves_try",
    "parallel_moves_ask",
    "parallel_moves_take",
    "parallel_moves_resolve_groups",
    "parallel_moves_answer_groups",
    "parallel_moves_frame_open",
    "parallel_moves_frame_formula",
    "parallel_moves_frame_resolve",
    "parallel_moves_frame_resolve_groups",
    "parallel_moves_frame_ask",
    "parallel_moves_frame_take",
    "parallel_moves_frame_made",
    "parallel_moves_examine",
    "parallel_moves_examine_in",
    "parallel_moves_shipped",
    "parallel_moves_open_priced",
    "parallel_moves_priced_job",
    "parallel_moves_write_opened",
    "parallel_moves_examine_opened",
    "parallel_moves_examine_formula",
];

/// Where the C header has a pointer to one number, and not to many.
const ONE_NUMBER: &[&str] = &[
    "*refusal",
    "*position",
    "*made",
    "*stamp",
    "*to",
    "*counter",
    "*total",
    "*runs_as_double",
    "*product",
];

fn read(path: &str) -> String {
    fs::read_to_string(root().join(path)).unwrap()
}

/// The static library that has the functions of an archive: the crate itself, or, where another
/// crate uses it as a library, the one beside it that exports its functions.
fn exporting(library: &str) -> String {
    let beside = format!("{library}_exports");
    let is_there = root().join("crates").join(&beside).is_dir();
    if is_there { beside } else { library.into() }
}

/// The source of a crate that is a library.
fn source(name: &str) -> String {
    read(&format!("crates/{name}/src/lib.rt"))
}

/// What stands between `start` and the next `end`.
fn between<'a>(text: &'a str, start: &str, end: &str) -> &'a str {
    let (_, after) = text
        .split_once(start)
        .unwrap_or_else(|| panic!("no {start}"));
    after
        .split_once(end)
        .unwrap_or_else(|| panic!("no {end}"))
        .0
}

/// The version of the interface, as the C header says.
fn interface() -> String {
    between(
        &read("c/parallel_moves.h"),
        "PARALLEL_MOVES_INTERFACE ",
        "\n",
    )
    .to_owned()
}

/// Parameters, each without spaces around it.
fn listed(parameters: &str) -> impl Iterator<Item = &str> {
    let parameters = parameters.split(',').map(str::trim);
    parameters.filter(|parameter| !parameter.is_empty())
}

/// The types that `type NAME = TYPE;` names.
fn types(text: &str, names: &mut Names) {
    for line in text.lines() {
        let public = ["pub ", "pub(crate) "];
        let line = public
            .iter()
            .find_map(|public| line.strip_prefix(public))
            .unwrap_or(line);
        if let Some((name, meaning)) = line.strip_prefix("type ").and_then(|l| l.split_once(" = "))
        {
            let meaning = meaning.trim_end_matches(';').replace('_', "");
            names.insert(name.to_owned(), meaning);
        }
    }
}

/// A parameter's type, with names replaced by what they stand for.
fn type_of(parameter: &str, names: &Names) -> String {
    let (_, kind) = parameter.split_once(": ").unwrap();
    let (reference, name) = ["&mut ", "&", ""]
        .into_iter()
        .find_map(|reference| Some((reference, kind.strip_prefix(reference)?)))
        .unwrap();
    format!(
        "{reference}{}",
        names.get(name).map_or(name, String::as_str)
    )
}

/// The result of a function of Rattle or Rust, from what follows its
/// parameters.
fn result(after: &str) -> String {
    let (result, _) = after.split_once(['\n', ';']).unwrap();
    result.strip_prefix(" -> ").unwrap().to_owned()
}

/// What the library lends and gives: a slice is a pointer and a length.
fn library(function: &str) -> Vec<String> {
    let mut names = Names::new();
    for entry in fs::read_dir(root().join("crates")).unwrap() {
        for source in fs::read_dir(entry.unwrap().path().join("src")).unwrap() {
            let path = source.unwrap().path();
            types(&fs::read_to_string(path).unwrap(), &mut names);
        }
    }
    let text: String = LIBRARIES
        .iter()
        .map(|name| source(&exporting(name)))
        .collect();
    let start = format!(
        "#[unsafe(no_mangle)]\npub extern \"C\" fn {function}_{}(",
        interface()
    );
    let (_, declared) = text
        .split_once(&start)
        .unwrap_or_else(|| panic!("no {start}"));
    let (parameters, after) = declared.split_once(')').unwrap();
    let mut list = Vec::new();
    for parameter in listed(parameters) {
        let kind = type_of(parameter, &names);
        let slice = kind.strip_suffix(']').filter(|kind| !kind.contains(';'));
        match slice.and_then(|slice| slice.split_once('[')) {
            Some(("&", item)) => list.extend([format!("*const {item}"), "usize".into()]),
            Some(("&mut ", item)) => list.extend([format!("*mut {item}"), "usize".into()]),
            _ => list.push(kind),
        }
    }
    list.push(result(after));
    list
}

/// What the one file of `sys` declares that has the function. Its types are its own
/// and those of `src/sys.rs`, which all share.
fn rust(function: &str) -> Vec<String> {
    let name = format!("#[link_name = \"{function}_{}\"]", interface());
    let shared = read("rust/src/sys.rs");
    let mut names = Names::new();
    types(&shared, &mut names);
    let mut texts = vec![shared];
    for file in fs::read_dir(root().join("rust/src/sys")).unwrap() {
        texts.push(fs::read_to_string(file.unwrap().path()).unwrap());
    }
    texts.retain(|text| text.contains(&name));
    assert_eq!(texts.len(), 1, "files of sys with {name}");
    types(&texts[0], &mut names);
    let (_, declared) = texts[0].split_once(&name).unwrap();
    let (_, declared) = declared.split_once(&format!("fn {function}(")).unwrap();
    let (parameters, after) = declared.split_once(')').unwrap();
    let mut list: Vec<String> = listed(parameters).map(|p| type_of(p, &names)).collect();
    list.push(result(after));
    list
}

/// What the C header declares, in the words of Rust.
fn c(function: &str) -> Vec<String> {
    let text = read("c/parallel_moves.h");
    let mut lengths = Names::new();
    for line in text.lines() {
        if let Some((name, length)) = line
            .strip_prefix("#define ")
            .and_then(|l| l.split_once(' '))
        {
            lengths.insert(name.to_owned(), length.to_owned());
        }
    }
    let item = |name: &str| {
        let name = name.trim_end_matches("_t").replace("uint", "u");
        name.replace("size", "usize").replace("double", "f64")
    };
    let one = |parameter: &str| {
        let (kind, name) = parameter.rsplit_once(' ').unwrap();
        let (mutable, kind) = match kind.strip_prefix("const ") {
            Some(kind) => (false, item(kind)),
            None => (true, item(kind)),
        };
        let length = name.strip_suffix(']').and_then(|n| n.split_once('['));
        match (length, mutable, name) {
            (Some((_, length)), true, _) => format!("&mut [{kind}; {}]", lengths[length]),
            (Some((_, length)), false, _) => format!("&[{kind}; {}]", lengths[length]),
            (None, true, name) if ONE_NUMBER.contains(&name) => format!("&mut {kind}"),
            (None, true, name) if name.starts_with('*') => format!("*mut {kind}"),
            (None, false, _) => format!("*const {kind}"),
            (None, true, _) => kind,
        }
    };
    let symbol = format!("PARALLEL_MOVES_SYMBOL(\"{function}\")");
    let (before, _) = text
        .split_once(&symbol)
        .unwrap_or_else(|| panic!("no {symbol}"));
    let (_, declared) = before.rsplit_once("*/").unwrap();
    let (name, parameters) = declared.trim().split_once('(').unwrap();
    let words: Vec<&str> = name.split(' ').collect();
    let mut list: Vec<String> = listed(parameters.trim_end_matches(')')).map(one).collect();
    list.push(item(words[words.len() - 2]));
    list
}

#[test]
fn parameters_agree() {
    let mut declared = String::new();
    for &function in FUNCTIONS {
        let library = library(function);
        assert_eq!(rust(function), library, "sys, {function}");
        assert_eq!(c(function), library, "c/parallel_moves.h, {function}");
        declared += &format!("{function}: {}\n", library.join(", "));
    }
    let interfaces = read("c/interface.txt");
    let recorded = between(&interfaces, &format!("version {}\n", interface()), "end\n");
    assert_eq!(
        recorded, declared,
        "a changed interface has a new version: count up PARALLEL_MOVES_INTERFACE and the names' \
         endings, and put it into c/interface.txt; a function more is a line more there"
    );
}

/// The functions of a source whose heads begin so: what stands from their names to their bodies.
fn heads<'a>(text: &'a str, start: &str) -> Vec<&'a str> {
    let functions = text.split(start).skip(1);
    functions.map(|f| f.split_once("\n{").unwrap().0).collect()
}

/// A crate of exports exports all that its library has, each function with the same parameters,
/// result and clauses, and has the library's function do it. Each of these crates is a static
/// library, and none is one and has no functions for C.
#[test]
fn exports_are_the_libraries() {
    let lines = read("crates.txt");
    let mut exports = 0;
    for line in lines.lines().filter(|line| line.contains(" staticlib:")) {
        let (name, _) = line.split_once(' ').unwrap();
        let library = name.strip_suffix("_exports").unwrap_or(name);
        assert!(LIBRARIES.contains(&library), "{name}");
        assert_eq!(exporting(library), name);
        exports += 1;
        if library == name {
            continue;
        }
        let (ours, theirs) = (source(name), source(library));
        let exported = heads(&ours, "#[unsafe(no_mangle)]\npub extern \"C\" fn ");
        assert!(!exported.is_empty());
        assert_eq!(exported, heads(&theirs, "\npub fn "), "{name}");
        assert_eq!(exported.len(), ours.matches("fn ").count(), "{name}");
        for head in exported {
            let (function, parameters) = head.split_once('(').unwrap();
            let (parameters, _) = parameters.split_once(')').unwrap();
            let given: Vec<&str> = listed(parameters)
                .map(|p| p.split_once(": ").unwrap().0)
                .collect();
            let (_, body) = ours.split_once(head).unwrap();
            let body = between(body, "{", "\n}");
            let call = body.split_whitespace().collect::<Vec<_>>().join(" ");
            let call = call.replace("( ", "(").replace(", )", ")");
            assert_eq!(call, format!("{library}::{function}({})", given.join(", ")));
        }
    }
    assert_eq!(exports, LIBRARIES.len());
}

/// The tables of a function's parameters.
fn tables<'a>(header: &'a str, function: &str) -> Vec<&'a str> {
    let tables = listed(between(header, &format!(" {function}("), ")"));
    let tables = tables.filter(|parameter| parameter.ends_with(']'));
    tables.map(|t| t.trim_start_matches("const ")).collect()
}

/// The fields of a struct, sorted.
fn fields<'a>(header: &'a str, name: &str) -> Vec<&'a str> {
    let body = between(header, &format!("struct {name} {{"), "}");
    let fields = body.split(';').map(str::trim);
    let mut fields: Vec<&str> = fields.filter(|field| !field.is_empty()).collect();
    fields.sort();
    fields
}

/// What the memory of the C header has beside the tables.
const BESIDE_TABLES: &[&str] = &["uint64_t openings", "uint16_t position", "bool is_open"];

/// What the memory of a frame has beside them.
const BESIDE_TABLES_OF_FRAME: &[&str] = &[
    "uint64_t openings",
    "size_t shares",
    "size_t opened",
    "uint32_t limit",
    "uint16_t position",
    "struct parallel_moves_formula formulas[PARALLEL_MOVES_MOST_FORMULAS]",
];

/// The structs' tables are those of the functions.
#[test]
fn memory_agrees() {
    let text = read("c/parallel_moves.h");
    let mut all = tables(&text, "parallel_moves_answer");
    let mut fields_of_memory = fields(&text, "parallel_moves_memory");
    fields_of_memory.retain(|field| !BESIDE_TABLES.contains(field));
    all.sort();
    assert_eq!(fields_of_memory, all);
    for (function, name) in [
        ("parallel_moves_write", "parallel_moves_writer"),
        ("parallel_moves_examine", "parallel_moves_examiner"),
    ] {
        let mut of_function = tables(&text, function);
        of_function.sort();
        assert_eq!(fields(&text, name), of_function);
    }
    // A frame's working tables; its formulas have the others.
    let mut of_frame = fields(&text, "parallel_moves_frame_memory");
    of_frame.extend(fields(&text, "parallel_moves_formula"));
    of_frame.retain(|field| !BESIDE_TABLES_OF_FRAME.contains(field));
    let mut of_resolving = tables(&text, "parallel_moves_frame_resolve");
    of_resolving.push("bool units[PARALLEL_MOVES_UNITS]");
    of_frame.sort();
    of_resolving.sort();
    assert_eq!(of_frame, of_resolving);
    for function in [
        "parallel_moves_open",
        "parallel_moves_open_priced",
        "parallel_moves_priced_job",
        "parallel_moves_enough_slots",
        "parallel_moves_resolve",
        "parallel_moves_ask",
        "parallel_moves_take",
    ] {
        let mut lent = tables(&text, function);
        lent.retain(|table| *table != "uint32_t prices[PARALLEL_MOVES_PRICES]");
        for table in lent {
            assert!(all.contains(&table), "{table}");
        }
    }
}

/// Every file that says which archives the library has names the same, in one order.
#[test]
fn archives_agree() {
    let build: Vec<String> = LIBRARIES.iter().map(|name| format!("{name:?}")).collect();
    let rust = read("rust/build.rs");
    assert!(listed(between(&rust, "LIBRARIES: &[&str] = &[", "];")).eq(build));
    let listed = format!("libraries=({})", LIBRARIES.join(" "));
    assert!(read("build").contains(&listed));
    let stamp = read("c/stamp");
    let stamped = between(&stamp, "libraries=(", ")").split(' ');
    let stamped: Vec<&str> = stamped
        .map(|pair| pair.split_once(':').unwrap().1)
        .collect();
    assert_eq!(stamped, LIBRARIES);
    for name in LIBRARIES {
        for file in [
            "bench/src/ours/library.rs",
            "compare/src/beside/ours/library.rs",
        ] {
            assert!(
                read(file).contains(&format!("link(name = {name:?}, kind")),
                "{file}"
            );
        }
        assert!(read("c/parallel_moves.h").contains(&format!("lib{name}.a")));
        assert!(read("c/test").contains(&format!("lib{name}.a")));
    }
}

/// The stamp's version is the crate's.
#[test]
fn build_is_stamped() {
    let start = format!(
        "parallel_moves {} interface {} library ",
        env!("CARGO_PKG_VERSION"),
        interface()
    );
    assert!(parallel_moves::BUILD.starts_with(&start));
    let stamp = root().join("target/staticlib/parallel_moves_build.h");
    if let Ok(stamp) = fs::read_to_string(stamp) {
        let stamped = between(&stamp, "#define PARALLEL_MOVES_BUILD \"", "\"");
        assert_eq!(parallel_moves::BUILD, stamped);
    }
}
