//! The C header has the version, the sizes, the structs, the functions, the refusals and their texts once more: they
//! must be those of this crate.

use mikjuqan::Refusal;
use std::fs;

/// A file by its path from this package.
fn file(path: &str) -> String {
    let path = format!("{}/{path}", env!("CARGO_MANIFEST_DIR"));
    fs::read_to_string(&path).unwrap_or_else(|error| panic!("{path}: {error}"))
}

fn header() -> String {
    file("../include/mikjuqan.h")
}

/// What the header defines a name as, without the comment behind it.
fn defined(name: &str) -> String {
    let (header, begin) = (header(), format!("#define {name} "));
    let definitions: Vec<&str> = header.lines().filter_map(|line| line.strip_prefix(&begin)).collect();
    let [definition] = definitions[..] else {
        panic!("{name} is defined {} times", definitions.len());
    };
    definition.split("/*").next().expect("something stands in front").trim().to_string()
}

/// The header's name of a refusal: an underscore before each word, and all in capitals.
fn header_name(refusal: Refusal) -> String {
    let mut name = String::from("MIKJUQAN_REFUSED");
    for letter in format!("{refusal:?}").chars() {
        if letter.is_ascii_uppercase() {
            name.push('_');
        }
        name.push(letter.to_ascii_uppercase());
    }
    name
}

/// The structs of the header: the name, and what stands between the braces.
fn header_structs(header: &str) -> Vec<(&str, &str)> {
    let mut structs = Vec::new();
    for rest in header.split("typedef struct {\n").skip(1) {
        let (members, rest) = rest.split_once("} ").expect("a struct ends");
        let (name, _) = rest.split_once(';').expect("a struct has a name");
        structs.push((name, members));
    }
    structs
}

/// The header's name of a type in Rust.
fn rust_type(name: &str) -> String {
    match name {
        "uint8_t" => "u8".to_string(),
        "uint32_t" => "u32".to_string(),
        "size_t" => "usize".to_string(),
        _ => {
            let words = name.strip_prefix("mikjuqan_").expect("a type of our own").split('_');
            words.map(|word| word[..1].to_ascii_uppercase() + &word[1..]).collect()
        }
    }
}

/// The struct that a struct of the header is in Rust, without comments.
fn rust_struct(name: &str, members: &str) -> String {
    let member = |line: &str| {
        let (kind, name) = line.trim().trim_end_matches(';').split_once(' ').expect("a member has a type");
        format!("    pub {name}: {},\n", rust_type(kind))
    };
    let members: String = members.lines().map(member).collect();
    format!("#[repr(C)]\npub struct {} {{\n{members}}}\n", rust_type(name))
}

/// The functions of the header, as Rust declares them: each on one line, in their order.
fn header_functions(header: &str) -> Vec<String> {
    let comments: Vec<&str> = header.split("/*").collect();
    let code: String = comments.iter().map(|part| part.split("*/").last().expect("there is a last part")).collect();
    let declared = code.split(";\n").filter(|part| part.ends_with(')') && part.contains("(const uint8_t *"));
    let rust_function = |part: &str| {
        let lines: Vec<&str> = part.lines().map(str::trim).filter(|line| !line.is_empty()).collect();
        let declaration = lines.join(" ");
        let (front, parameters) = declaration.trim_end_matches(')').split_once('(').expect("a function has parameters");
        let (answer, name) = front.split_once(' ').expect("a function has an answer");
        let parameters: Vec<String> = parameters.split(", ").map(rust_parameter).collect();
        format!("pub fn {name}({}) -> {};", parameters.join(", "), rust_type(answer))
    };
    declared.map(rust_function).collect()
}

/// A parameter of the header in Rust; a pointer's star stands before its name.
fn rust_parameter(parameter: &str) -> String {
    let (kind, name) = parameter.rsplit_once(' ').expect("a parameter has a type");
    match (name.strip_prefix('*'), kind.strip_prefix("const ")) {
        (Some(name), Some(kind)) => format!("{name}: *const {}", rust_type(kind)),
        (Some(name), None) => format!("{name}: *mut {}", rust_type(kind)),
        (None, _) => format!("{name}: {}", rust_type(kind)),
    }
}

#[test]
fn version() {
    assert_eq!(defined("MIKJUQAN_VERSION"), format!("\"{}\"", env!("CARGO_PKG_VERSION")));
}

#[test]
fn sizes() {
    let sizes = [
        ("MIKJUQAN_POSITIONS", mikjuqan::POSITIONS),
        ("MIKJUQAN_BLOCK_LENGTH", mikjuqan::BLOCK_LENGTH),
        ("MIKJUQAN_MAPS_LENGTH", mikjuqan::MAPS_LENGTH),
        ("MIKJUQAN_TABLE_LENGTH", mikjuqan::TABLE_LENGTH),
        ("MIKJUQAN_PLAN_LENGTH", mikjuqan::PLAN_LENGTH),
        ("MIKJUQAN_LIST_LENGTH", mikjuqan::LIST_LENGTH),
        ("MIKJUQAN_QUERIES", mikjuqan::QUERIES),
        ("MIKJUQAN_LIMITS_LENGTH", mikjuqan::LIMITS_LENGTH),
        ("MIKJUQAN_ANSWER_LENGTH", mikjuqan::ANSWER_LENGTH),
        ("MIKJUQAN_ANSWER_PLAN", mikjuqan::ANSWER_LENGTH - mikjuqan::PLAN_LENGTH),
    ];
    for (name, size) in sizes {
        assert_eq!(defined(name), size.to_string(), "{name}");
    }
    assert_eq!(defined("MIKJUQAN_NO_PATH"), format!("UINT32_C({})", mikjuqan::NO_PATH));
}

/// The structs that are handed to the library and back, and the number in them that stands for no goal.
#[test]
fn structs() {
    let sources = file("src/ffi.rs") + &file("src/answers.rs");
    let code = |line: &&str| !line.trim().starts_with("//");
    let sources: String = sources.lines().filter(code).map(|line| format!("{line}\n")).collect();
    let header = header();
    let structs = header_structs(&header);
    assert_eq!(structs.len(), sources.matches("#[repr(C)]").count());
    for (name, members) in structs {
        let expected = rust_struct(name, members);
        assert!(sources.contains(&expected), "there is no\n{expected}");
    }
    let no_goal = format!("pub const NO_GOAL: u8 = {};", defined("MIKJUQAN_NO_GOAL"));
    assert!(sources.contains(&no_goal), "there is no {no_goal}");
}

/// The functions of the library, with the names and types of all parameters.
#[test]
fn functions() {
    let source = file("src/ffi.rs");
    let (_, behind) = source.split_once("extern \"C\" {").expect("the functions are declared");
    let (declared, _) = behind.split_once("\n    }\n").expect("the declarations end");
    let lines: Vec<&str> = declared.lines().map(str::trim).filter(|line| !line.is_empty()).collect();
    let declared = lines.join(" ").replace("( ", "(").replace(", )", ")");
    let functions = header_functions(&header());
    assert_eq!(functions.len(), 14);
    assert_eq!(functions.len(), declared.matches("pub fn ").count());
    for function in functions {
        assert!(declared.contains(&function), "there is no\n{function}\nin\n{declared}");
    }
}

/// Each refusal has its number, twice in its comment too: in decimal, and as the two digits that `par` prints.
#[test]
fn numbers_of_refusals() {
    let header = header();
    let cases: Vec<&str> = header.lines().filter(|line| line.starts_with("  MIKJUQAN_REFUSED_")).collect();
    assert_eq!(cases.len(), Refusal::ALL.len());
    for (case, &refusal) in cases.iter().zip(Refusal::ALL) {
        let number = refusal.number();
        let (code, comment) = case.split_once("/*").expect("a refusal has a comment");
        assert_eq!(code.trim().trim_end_matches(','), format!("{} = {number}", header_name(refusal)));
        assert!(comment.starts_with(&format!(" {number} = {number:02X}: ")), "{case}");
    }
}

#[test]
fn texts_of_refusals() {
    let header = header();
    for &refusal in Refusal::ALL {
        let shown = refusal.to_string();
        let text = shown.strip_prefix(&format!("refused with {}: ", refusal.number())).expect("the number is shown");
        let case = format!("    case {}: return \"{text}\";", header_name(refusal));
        assert!(header.lines().any(|line| line == case), "the header has no line {case}");
    }
}
