//! sheets: random sheets, and sheets kept as text.
//!
//!     sheets --seed S --count N [--max-events K] --format hex|deftest-parse|batch|dump
//!     sheets files DIR SEED COUNT   random sheets, a file each: mostly few events, at times up to 18
//!     sheets archive DIR SEED COUNT   the same with up to 18 events, a thousand a folder; prints NAME, a tab, the line of each
//!     sheets lists SEED COUNT    random sheets with up to 18 events and a list each; prints NAME, the sheet in hex, the list as
//!                                numbers with commas between, the line of its check (02 §5), tabs between
//!     sheets whys SEED COUNT     random sheets with up to 18 events, most of them broken by 26; prints NAME, the sheet in hex, the
//!                                lengths of scratch and buffer lent, the line of 02 §8, tabs between
//!     sheets tsv FILE            check the sheets of a .tsv against the second program
//!     sheets tsv FILE --batch    its sheets, each after its length in two bytes
//!     sheets tsv FILE --lines    its expected lines
//!     sheets litmus SRC DIR      the files of every litmus entry (NAME.sheet, .txt, .line) from their one source
//!     sheets litmus SRC DIR --check   whether the files are as the source makes them
//!     sheets text FILE           the bytes of a sheet's text
//!     sheets dump FILE           the text of a sheet

use second::sheet::{MAX_EVENTS, MAX_OTHERS, MAX_SCRATCH};
use second::text::{from_hex, from_text, hex, litmus, to_text};
use second::{check, judge, random, read, why, Answer};
use std::io::Write;

const USAGE: &str = "usage: sheets --seed S --count N [--max-events K] --format hex|deftest-parse|batch|dump
       sheets files DIR SEED COUNT
       sheets archive DIR SEED COUNT
       sheets lists SEED COUNT
       sheets whys SEED COUNT
       sheets tsv FILE [--batch|--lines]
       sheets litmus SRC DIR [--check]
       sheets text FILE
       sheets dump FILE";

fn main() {
    let args: Vec<String> = std::env::args().skip(1).collect();
    let words: Vec<&str> = args.iter().map(|a| a.as_str()).collect();
    let done = match words[..] {
        ["files", dir, seed, count] => files(dir, seed, count),
        ["archive", dir, seed, count] => archive(dir, seed, count),
        ["lists", seed, count] => lists(seed, count),
        ["whys", seed, count] => whys(seed, count),
        ["tsv", file] => tsv_check(file),
        ["tsv", file, "--batch"] => tsv(file).and_then(|all| all.iter().try_for_each(|t| out(&batched(&t.sheet)))),
        ["tsv", file, "--lines"] => {
            tsv(file).and_then(|all| all.iter().try_for_each(|t| out(format!("{}\n", t.expected).as_bytes())))
        }
        ["litmus", source, dir] => litmus_files(source, dir, false),
        ["litmus", source, dir, "--check"] => litmus_files(source, dir, true),
        ["text", file] => text_of(file).and_then(|text| from_text(&text)).and_then(|sheet| out(&sheet)),
        ["dump", file] => {
            let sheet = std::fs::read(file).map_err(|e| format!("{file}: {e}"));
            sheet.and_then(|sheet| out(to_text(&sheet).as_bytes()))
        }
        _ => random_sheets(&words),
    };
    if let Err(why) = done {
        eprintln!("sheets: {why}");
        std::process::exit(1);
    }
}

fn out(bytes: &[u8]) -> Result<(), String> {
    std::io::stdout().write_all(bytes).map_err(|e| e.to_string())
}

fn text_of(file: &str) -> Result<String, String> {
    std::fs::read_to_string(file).map_err(|e| format!("{file}: {e}"))
}

/// A sheet after its length in two bytes, the most significant first.
fn batched(sheet: &[u8]) -> Vec<u8> {
    let mut bytes = (sheet.len() as u16).to_be_bytes().to_vec();
    bytes.extend(sheet);
    bytes
}

fn random_sheets(words: &[&str]) -> Result<(), String> {
    let (mut seed, mut count, mut max, mut format) = (1u64, 10u64, 6usize, "hex".to_string());
    for two in words.chunks(2) {
        let [flag, value] = two else {
            return Err(USAGE.to_string());
        };
        let number = || value.parse::<u64>().map_err(|_| format!("{flag} {value}: no number"));
        match *flag {
            "--seed" => seed = number()?,
            "--count" => count = number()?,
            "--max-events" => max = number()? as usize,
            "--format" => format = value.to_string(),
            _ => return Err(USAGE.to_string()),
        }
    }
    let mut stdout = std::io::BufWriter::new(std::io::stdout().lock());
    for index in 0..count {
        let c = random::case(seed, index, max);
        let line = || judge(&c.sheet, MAX_SCRATCH, MAX_EVENTS).line();
        let bytes = match format.as_str() {
            "hex" => format!("{}\t{}\t{}\n", c.name, hex(&c.sheet), line()).into_bytes(),
            "deftest-parse" => {
                format!("{}\t{}\t{}\n", c.name, hex(&c.sheet), parsed(&c.sheet, "whole", " ")).into_bytes()
            }
            "batch" => batched(&c.sheet),
            "dump" => format!("# {}\n{}# {}\n\n", c.name, to_text(&c.sheet), line()).into_bytes(),
            _ => return Err(USAGE.to_string()),
        };
        stdout.write_all(&bytes).map_err(|e| e.to_string())?;
    }
    stdout.flush().map_err(|e| e.to_string())
}

fn number(word: &str) -> Result<u64, String> {
    word.parse().map_err(|_| format!("{word}: no number"))
}

fn files(dir: &str, seed: &str, count: &str) -> Result<(), String> {
    for index in 0..number(count)? {
        let c = random::case(number(seed)?, index, random::mostly_few(index));
        std::fs::write(format!("{dir}/{}", c.name), &c.sheet).map_err(|e| format!("{dir}/{}: {e}", c.name))?;
    }
    Ok(())
}

fn archive(dir: &str, seed: &str, count: &str) -> Result<(), String> {
    let seed = number(seed)?;
    let mut stdout = std::io::BufWriter::new(std::io::stdout().lock());
    for index in 0..number(count)? {
        let c = random::case(seed, index, MAX_OTHERS);
        let folder = format!("{dir}/{:03}", index / 1000);
        if index % 1000 == 0 {
            std::fs::create_dir_all(&folder).map_err(|e| format!("{folder}: {e}"))?;
        }
        let name = format!("{folder}/{}.sheet", c.name);
        std::fs::write(&name, &c.sheet).map_err(|e| format!("{name}: {e}"))?;
        let line = judge(&c.sheet, MAX_SCRATCH, MAX_EVENTS).line();
        writeln!(stdout, "{name}\t{line}").map_err(|e| e.to_string())?;
    }
    stdout.flush().map_err(|e| e.to_string())
}

fn lists(seed: &str, count: &str) -> Result<(), String> {
    let seed = number(seed)?;
    let mut stdout = std::io::BufWriter::new(std::io::stdout().lock());
    for index in 0..number(count)? {
        let c = random::list_case(seed, index, MAX_OTHERS);
        let list: Vec<String> = c.list.iter().map(|e| e.to_string()).collect();
        let line = check(&c.sheet, &c.list).line();
        writeln!(stdout, "{}\t{}\t{}\t{line}", c.name, hex(&c.sheet), list.join(",")).map_err(|e| e.to_string())?;
    }
    stdout.flush().map_err(|e| e.to_string())
}

fn whys(seed: &str, count: &str) -> Result<(), String> {
    let seed = number(seed)?;
    let mut stdout = std::io::BufWriter::new(std::io::stdout().lock());
    for index in 0..number(count)? {
        let c = random::why_case(seed, index, MAX_OTHERS);
        let line = why(&c.sheet, c.scratch, c.bars).line();
        writeln!(stdout, "{}\t{}\t{}\t{}\t{line}", c.name, hex(&c.sheet), c.scratch, c.bars)
            .map_err(|e| e.to_string())?;
    }
    stdout.flush().map_err(|e| e.to_string())
}

/// What reading gives: `refused`, number, place; or a word and agents, memory size, inits, events (inits among them),
/// rows, pairs.
fn parsed(sheet: &[u8], whole: &str, at: &str) -> String {
    match read(sheet) {
        Err((number, place)) => format!("refused {number}{at}{place}"),
        Ok(x) => format!(
            "{whole} {} {} {} {} {} {}",
            x.agents,
            x.size,
            x.inits(),
            x.events.len(),
            x.rows.len(),
            x.pairs.len()
        ),
    }
}

struct Told {
    name: String,
    sheet: Vec<u8>,
    expected: String,
}

/// The lines NAME, HEX, EXPECTED of a file, tabs between; `#` begins a comment line.
fn tsv(file: &str) -> Result<Vec<Told>, String> {
    let mut all = vec![];
    for (i, line) in text_of(file)?.lines().enumerate() {
        if line.is_empty() || line.starts_with('#') {
            continue;
        }
        let [name, bytes, expected] = line.split('\t').collect::<Vec<_>>()[..] else {
            return Err(format!("{file}: line {}: not three columns", i + 1));
        };
        let sheet = from_hex(bytes).map_err(|why| format!("{file}: line {}: {why}", i + 1))?;
        all.push(Told { name: name.to_string(), sheet, expected: expected.to_string() });
    }
    Ok(all)
}

/// `read ..` or `refused ..` is compared with reading, anything else with the report line.
fn tsv_check(file: &str) -> Result<(), String> {
    let all = tsv(file)?;
    let mut wrong = 0;
    for t in &all {
        let found = match t.expected.split(' ').next() {
            Some("read") | Some("refused") => parsed(&t.sheet, "read", " at "),
            _ => {
                let answer: Answer = judge(&t.sheet, MAX_SCRATCH, MAX_EVENTS);
                answer.line()
            }
        };
        if found != t.expected {
            wrong += 1;
            println!("{}: expected '{}', found '{found}'", t.name, t.expected);
        }
    }
    println!("{} sheets, {wrong} wrong", all.len());
    if wrong > 0 {
        return Err(format!("{wrong} wrong"));
    }
    Ok(())
}

/// Writes, or compares, the three files of each entry. The directory holds no other such files.
fn litmus_files(source: &str, dir: &str, check: bool) -> Result<(), String> {
    let entries = litmus(&text_of(source)?)?;
    let mut files = std::collections::BTreeMap::new();
    for e in &entries {
        let text = format!("{}\n{}", e.words, to_text(&e.sheet));
        files.insert(format!("{}.sheet", e.name), e.sheet.clone());
        files.insert(format!("{}.txt", e.name), text.into_bytes());
        files.insert(format!("{}.line", e.name), format!("{}\n", e.line).into_bytes());
    }
    let listed = std::fs::read_dir(dir).map_err(|e| format!("{dir}: {e}"))?;
    for found in listed {
        let name = found.map_err(|e| e.to_string())?.file_name().to_string_lossy().into_owned();
        let ours = [".sheet", ".txt", ".line"].iter().any(|end| name.ends_with(end));
        if ours && !files.contains_key(&name) {
            return Err(format!("{dir}/{name}: no entry of {source} makes it"));
        }
    }
    for (name, bytes) in &files {
        let path = format!("{dir}/{name}");
        if !check {
            std::fs::write(&path, bytes).map_err(|e| format!("{path}: {e}"))?;
        } else if std::fs::read(&path).ok().as_ref() != Some(bytes) {
            return Err(format!("{path}: not as {source} makes it"));
        }
    }
    println!("{} entries", entries.len());
    Ok(())
}
