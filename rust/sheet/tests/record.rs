//! What a sheet says of itself: one record, the same in every format.

mod common;
use common::{entries, printed, recorded, sha256, table};

const JOB: &str = "--kind hex --width 4 --length 9 --cylinder --beta 0.50,1e0 --dilute 0.9,0.5,1.50,11 --seed 7";

fn dense(text: &str) -> String {
    text.split_whitespace().collect()
}

#[test]
fn it_is_the_same_in_every_format() {
    let house = JOB.replace("0.5,1.50", "1,1") + " --house";
    let others = ["--signs plus", "--sample 3 --chunks 2..5"].map(|which| JOB.replace("--seed 7", which));
    for job in [JOB.to_string(), house].into_iter().chain(others) {
        let entries = entries(&printed(&format!("{job} --format csv")));
        let json = printed(&format!("{job} --format json"));
        let (text, svg) = (printed(&job), printed(&format!("{job} --format svg")));
        let record = text.split_once("\n\ncopperhook: ").unwrap().1;
        let lines: String = svg.split_once("<g class=\"record\"").unwrap().1.lines().skip(1).collect();
        let footer: String = lines.split('<').map(|part| part.split_once('>').map_or("", |(_, text)| text)).collect();
        for (key, value) in &entries {
            let quoted = [format!("    \"{key}\": \"{value}\""), format!("    \"{key}\": {value}"), format!("    \"{key}\": null")];
            let none = value == "none";
            assert!(if none { json.contains(&quoted[2]) } else { json.contains(&quoted[0]) || json.contains(&quoted[1]) }, "{key} {json}");
            let entry = dense(&format!("{key}: {value}"));
            assert_eq!(dense(&format!("copperhook: {record}")).contains(&entry), !none, "{key} {text}");
            assert_eq!(dense(&footer).contains(&entry), !none, "{key} {footer}");
        }
        assert_eq!(json.matches("\n    \"").count(), entries.len());
    }
}

#[test]
fn it_has_all_of_the_job() {
    let entries = entries(&printed(&format!("{JOB} --format csv --bits --output /dev/stdout")));
    let has = |key: &str| entries.iter().find(|entry| entry.0 == key).unwrap().1.clone();
    let command = "sheet make --kind honey --width 4 --length 9 --cylinder --dilute 0.9,0.5,1.5,11 --beta 0.5,1 --seed 7 --manner block";
    assert_eq!(has("command"), command);
    for (key, value) in [
        ("kind", "honey"),
        ("boundary", "cyl"),
        ("width", "4"),
        ("length", "9"),
        ("vertices", "36"),
        ("dilution_keep", "0.9"),
        ("dilution_high", "1.5"),
        ("dilution_seed", "11"),
        ("configurations", "one"),
        ("seed", "7"),
        ("count", "1"),
        ("manner", "block"),
    ] {
        assert_eq!(has(key), value, "{key}");
    }
    assert!(entries.iter().all(|(key, _)| key.bytes().all(|c| c.is_ascii_lowercase() || c.is_ascii_digit() || c == b'_')));
    assert_eq!(has("signs").len().to_string(), has("kept_edges"));
    let version = printed("--version");
    assert_eq!(version, format!("copperhook {}\ncommit {}\narchive sha256 {}\n", has("copperhook"), has("commit"), has("archive_sha256")));
    assert!([has("archive_sha256"), has("factors_sha256")].iter().all(|digest| digest.len() == 64));
}

/// The factors' bytes at one beta and one edge are those of exp(0.5) and exp(-0.5), lowest first.
#[test]
fn the_factors_digest_is_of_their_bytes() {
    let factors = "--kind sq --width 1 --length 2 --beta 0.5 --format csv";
    let digest = recorded(&printed(factors), "factors_sha256");
    let bytes: Vec<u8> = [0.5f64.exp(), (-0.5f64).exp()].iter().flat_map(|x| x.to_bits().to_le_bytes()).collect();
    assert_eq!(digest, sha256(&bytes));
}

/// All signs stand there, over 64 too.
#[test]
fn long_signs_are_whole() {
    let signs = "+-".repeat(90).chars().take(172).collect::<String>();
    let line = format!("--kind sq --width 8 --length 12 --beta 0.4 --signs {signs}");
    let entries = entries(&printed(&format!("{line} --format csv")));
    assert!(entries.contains(&("signs".to_string(), signs.clone())));
    let text = printed(&line);
    assert!(dense(&text).contains(&format!("signs:{signs}")) && text.lines().skip(4).all(|line| line.chars().count() <= 140), "{text}");
}

/// What was asked for in other words has the same record; so have the numbers.
#[test]
fn the_command_asks_for_the_same_numbers() {
    for line in [
        JOB,
        "--house --kind sq --width 3 --length 3 --beta 0.5 --signs plus",
        "--kind sq --width 3 --length 3 --beta 0.4 --pairs 0-1,8-2",
        "--kind tri --width 3 --length 3 --beta 1 --sample 4 --threads 3",
    ] {
        let csv = printed(&format!("{line} --format csv --bits"));
        let command = recorded(&csv, "command");
        assert_eq!(printed(&format!("{} --format csv --bits", command.strip_prefix("sheet ").unwrap())), csv);
        assert!(table(&csv).lines().count() > 1);
    }
}
