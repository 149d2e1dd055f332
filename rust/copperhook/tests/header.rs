//! The C header: it compiles as C11 and as C++17 without a warning, it declares what the bindings declare, and a C program that uses it
//! prints what the bindings return.

use copperhook::{limits, Arrangement, Caller, Graph, Job, Kind, Manner, Refusal, Sampling, Strip};
use std::collections::BTreeMap;
use std::path::{Path, PathBuf};
use std::process::{Command, Output};

const STRICT: [&str; 4] = ["-Wall", "-Wextra", "-Werror", "-pedantic"];

fn repository() -> PathBuf {
    Path::new(env!("CARGO_MANIFEST_DIR")).join("../..")
}

fn include() -> String {
    format!("-I{}", repository().join("include").display())
}

/// A folder of this test alone, under cargo's own.
fn folder(name: &str) -> PathBuf {
    let folder = Path::new(env!("CARGO_TARGET_TMPDIR")).join(name);
    std::fs::create_dir_all(&folder).unwrap();
    folder
}

fn succeeded(output: Output) -> String {
    assert!(output.status.success(), "{}", String::from_utf8_lossy(&output.stderr));
    String::from_utf8(output.stdout).unwrap()
}

/// Compiles a file that includes the header twice.
fn compiles_as(compiler: &str, standard: &str, name: &str) {
    let source = folder("header").join(name);
    std::fs::write(&source, "#include \"copperhook.h\"\n#include \"copperhook.h\"\nint main() { return COPPERHOOK_ACCEPTED; }\n").unwrap();
    let mut command = Command::new(compiler);
    command.arg(standard).args(STRICT).arg(include()).arg("-fsyntax-only").arg(&source);
    match command.output() {
        Ok(output) => drop(succeeded(output)),
        Err(e) => eprintln!("not tried: {compiler} does not run here ({e})"),
    }
}

#[test]
fn it_is_c11() {
    compiles_as("gcc", "-std=c11", "header.c");
}

#[test]
fn it_is_cpp17() {
    compiles_as("g++", "-std=c++17", "header.cpp");
}

/// Each function that a text declares, with its number of parameters.
fn declared(text: &str) -> BTreeMap<String, usize> {
    let mut functions = BTreeMap::new();
    for (at, _) in text.match_indices("copperhook_") {
        let name: String = text[at..].chars().take_while(|c| c.is_alphanumeric() || *c == '_').collect();
        let rest = &text[at + name.len()..];
        if let Some(parameters) = rest.strip_prefix('(').and_then(|r| r.split_once(')')).map(|r| r.0) {
            functions.insert(name, parameters.split(',').filter(|p| !p.trim().is_empty()).count());
        }
    }
    functions
}

fn read(path: &str) -> String {
    std::fs::read_to_string(repository().join(path)).unwrap_or_else(|e| panic!("{path}: {e}"))
}

#[test]
fn header_and_bindings_declare_the_same() {
    let header = declared(&read("include/copperhook.h"));
    assert!(!header.is_empty());
    assert_eq!(header, declared(&read("rust/copperhook/src/sys.rs")));
}

/// Each function that the library's source exports, with its number of parameters over C: a slice is two.
fn exported() -> BTreeMap<String, usize> {
    let mut functions = BTreeMap::new();
    let folders = std::fs::read_dir(repository().join("crates")).unwrap().map(|folder| folder.unwrap().path());
    let exports = folders.filter(|folder| folder.file_name().is_some_and(|name| name.to_string_lossy().starts_with("export_")));
    for file in exports.flat_map(|folder| std::fs::read_dir(folder.join("src")).unwrap()) {
        let text = std::fs::read_to_string(file.unwrap().path()).unwrap();
        for part in text.split("extern \"C\" fn ").skip(1) {
            let (name, rest) = part.split_once('(').unwrap();
            let parameters = rest.split_once(')').unwrap().0;
            let slice = |p: &str| (p.contains("&[") || p.contains("&mut [")) && !p.contains(';');
            let count = parameters.split(',').filter(|p| !p.trim().is_empty()).map(|p| if slice(p) { 2 } else { 1 }).sum();
            functions.insert(name.to_string(), count);
        }
    }
    functions
}

#[test]
fn header_declares_what_the_library_exports() {
    let header = declared(&read("include/copperhook.h"));
    let missing: Vec<_> = exported().into_iter().filter(|(name, count)| header.get(name) != Some(count)).collect();
    assert!(missing.is_empty(), "not in the header, or with other parameters: {missing:?}");
    assert_eq!(header.len(), exported().len());
}

/// Returns what an enum of the header has, in its order, as NAME = number.
fn enumerated(name: &str) -> Vec<String> {
    let header = read("include/copperhook.h");
    let (_, rest) = header.split_once(&format!("enum copperhook_{name} {{")).unwrap_or_else(|| panic!("no enum of the name {name}"));
    let body = rest.split_once("};").unwrap().0;
    let without_comments: String = body.split("/*").map(|part| part.split_once("*/").map_or(part, |(_, code)| code)).collect();
    without_comments.split(',').map(|row| row.trim().to_string()).collect()
}

/// Returns a case as the header names it: VertexCount is COPPERHOOK_VERTEX_COUNT.
fn constant(case: impl std::fmt::Debug) -> String {
    let mut name = "COPPERHOOK".to_string();
    for c in format!("{case:?}").chars() {
        name.extend(c.is_uppercase().then_some('_').into_iter().chain(c.to_uppercase()));
    }
    name
}

#[test]
fn header_and_bindings_number_the_same() {
    let refusals = Refusal::ALL.iter().map(|r| format!("{} = {}", constant(r), r.number()));
    assert_eq!(enumerated("refusal"), ["COPPERHOOK_ACCEPTED = 0".to_string()].into_iter().chain(refusals).collect::<Vec<_>>());
    assert_eq!(enumerated("kind"), Kind::ALL.iter().map(|k| format!("{} = {}", constant(k), k.number())).collect::<Vec<_>>());
    let manners = [Manner::PerElement, Manner::Block].map(|m| format!("{} = {}", constant(m), m as usize));
    let less_room = format!("{} = {}", constant(Arrangement::LessRoom), Arrangement::LessRoom as usize);
    let tester = format!("{} = {}", constant(Caller::Tester), Caller::Tester as usize);
    assert_eq!(enumerated("option"), manners.into_iter().chain([less_room, tester]).collect::<Vec<_>>());
}

#[test]
fn header_and_bindings_have_the_same_limits() {
    let limits = [
        ("MOST_VERTICES", limits::VERTICES),
        ("MOST_EDGES", limits::EDGES),
        ("MOST_PAIRS", limits::PAIRS),
        ("MOST_BETAS", limits::BETAS),
        ("MOST_WINDOW", limits::WINDOW),
        ("TESTER_WINDOW", limits::TESTER_WINDOW),
        ("TESTER_FREE", limits::TESTER_FREE),
        ("STORED_FREE", limits::STORED_FREE),
        ("SHARE_LISTS", limits::SHARE_LISTS),
        ("SHARE_ENTRIES", limits::SHARE_ENTRIES),
        ("STANDARD_PAIRS", limits::STANDARD_PAIRS),
        ("LABEL_BYTES", limits::LABEL_BYTES),
        ("SHEET_BYTES", limits::SHEET_BYTES),
    ];
    assert_eq!(enumerated("limit"), limits.map(|(name, most)| format!("COPPERHOOK_{name} = {most}")));
}

/// What tests/square.c prints, from the bindings.
fn square_sheet() -> Result<String, Refusal> {
    let strip = Strip { kind: Kind::Square, width: 2, length: 2, periodic: false };
    let (edges, pairs) = (strip.edge_list()?, strip.labelled_pairs()?);
    let (us, vs): (Vec<usize>, Vec<usize>) = pairs.iter().map(|p| (p.u, p.v)).unzip();
    let job = Job { graph: edges.graph(strip.n()?), us: &us, vs: &vs };
    let mut work = vec![0.0; job.room()?];
    let mut text = String::new();
    for last in [2.0, 0.5] {
        let mut results = vec![0.0; us.len()];
        job.correlations(&[2.0, 2.0, 2.0, last], Manner::Block, &mut results, &mut work)?;
        for (pair, x) in pairs.iter().zip(&results) {
            text += &format!("{} {} {} {:016x}\n", pair.label, pair.u, pair.v, x.to_bits());
        }
        // 62 units of 2^-53
        assert_eq!(job.graph.error_bound(&[2.0, 2.0, 2.0, last])?, Some(62.0 / 2f64.powi(53)));
        text += "within 0x1.fp-48\n";
    }
    Ok(text)
}

/// What a program of this folder prints, compiled and linked with these options besides.
fn printed_by(name: &str, options: &[&str]) -> String {
    let program = folder(name).join(name);
    let source = repository().join(format!("rust/copperhook/tests/{name}.c"));
    let mut compile = Command::new("gcc");
    compile.arg("-std=c11").args(STRICT).arg(include()).arg(source).arg(copperhook::ARCHIVE).args(options).arg("-o").arg(&program);
    succeeded(compile.output().expect("gcc runs"));
    succeeded(Command::new(program).output().unwrap())
}

#[test]
fn fast_math_turns_subnormals_off_and_the_default_environment_on_again() {
    assert_eq!(printed_by("environment", &["-ffast-math", "-lm"]), "0 0000000000000000\n0 0000000000000001\n");
}

#[test]
fn a_c_program_prints_what_the_bindings_answer() {
    let printed = printed_by("square", &[]);
    assert_eq!(printed, square_sheet().unwrap());
    for line in ["corner-adj-a 0 1", "opp-corners 0 3"] {
        assert!(printed.contains(line), "{printed}");
    }
}

/// What tests/house.c prints, from the bindings.
fn house_lines() -> Result<String, Refusal> {
    let graph = Graph::new(3, &[0, 1, 0], &[1, 2, 2], &[1.0, 0.5, 2.0]);
    let (job, betas, by) = (Job { graph, us: &[0, 0], vs: &[1, 2] }, [0.25, 1.0], Sampling { seed: 7, from: 2, to: 5, samples: 4 });
    let (mut results, mut stored, mut work) = ([0.0; 2], [0.0; 8], vec![0.0; job.room()?]);
    let line = |list: &[f64]| list.iter().fold("0".to_string(), |line, x| line + &format!(" {:016x}", x.to_bits())) + "\n";
    job.house_correlations(&[0.5, -0.25, 4.0], Manner::Block, &mut results, &mut work)?;
    let mut lines = line(&results);
    job.house_exhaustive_c(&betas, Manner::Block, &mut stored, &mut work)?;
    lines += &line(&stored);
    let (squares, fourths) = stored.split_at_mut(4);
    job.house_exhaustive(&betas, Manner::Block, squares, fourths, &mut work)?;
    lines += &line(&stored);
    let (squares, fourths) = stored.split_at_mut(4);
    job.house_sample(&betas, Manner::Block, &by, squares, fourths, &mut work)?;
    Ok(lines + &line(&stored) + "23\n")
}

#[test]
fn a_c_program_by_house_factors_prints_what_the_bindings_answer() {
    assert_eq!(printed_by("house", &[]), house_lines().unwrap());
}

#[test]
fn a_c_program_prints_shares_and_a_refused_call_leaves_them() {
    assert_eq!(printed_by("shares", &[]), "0 1 2 1 3 1 6 1 3\n25 7 7 7 7 7 7 7 7\n");
}

#[test]
fn a_c_program_joins_records_and_takes_their_totals() {
    assert_eq!(printed_by("records", &[]), "0 0 0\n0 0\n0 0 12 12\n26 27 26\n");
}
