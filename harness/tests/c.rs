//! The header in C and C++, and the C program over the litmus files.

mod words;

use std::io::Write;
use std::path::PathBuf;
use std::process::{Command, Stdio};

fn root() -> PathBuf {
    PathBuf::from(concat!(env!("CARGO_MANIFEST_DIR"), "/.."))
}

/// Compiles examples/c/judge.c as C or C++ and links the archive; the program.
fn compiled(compiler: &str, language: &str, standard: &str) -> PathBuf {
    compiled_from("examples/c/judge.c", compiler, language, standard)
}

fn compiled_from(source: &str, compiler: &str, language: &str, standard: &str) -> PathBuf {
    let stem = root().join(source).file_stem().unwrap().to_string_lossy().into_owned();
    let out = PathBuf::from(env!("CARGO_TARGET_TMPDIR")).join(format!("{stem}-{standard}"));
    let done = Command::new(compiler)
        .args(["-Wall", "-Wextra", "-pedantic", "-Werror", &format!("-std={standard}"), "-x", language])
        .arg("-I")
        .arg(root().join("include"))
        .arg(root().join(source))
        .args(["-x", "none"])
        .arg(root().join("target/native/libplimdrong.a"))
        .arg("-o")
        .arg(&out)
        .output()
        .unwrap_or_else(|e| panic!("{compiler}: {e}"));
    assert!(done.status.success(), "{compiler} -std={standard}\n{}", String::from_utf8_lossy(&done.stderr));
    out
}

fn runs_litmus(program: PathBuf) {
    let dir = root().join("examples/litmus");
    let mut sheets: Vec<PathBuf> = std::fs::read_dir(dir).unwrap().map(|f| f.unwrap().path()).collect();
    sheets.retain(|f| f.extension().is_some_and(|e| e == "sheet"));
    sheets.sort();
    let out = Command::new(program).args(&sheets).output().unwrap();
    assert!(out.status.success());
    let out = String::from_utf8(out.stdout).unwrap();
    assert_eq!(out.lines().count(), sheets.len());
    for (file, line) in sheets.iter().zip(out.lines()) {
        let (word, line) = line.split_once(' ').unwrap();
        let expected = std::fs::read_to_string(file.with_extension("line")).unwrap();
        assert_eq!(format!("{line}\n"), expected, "{}", file.display());
        let answer = second::judge(&std::fs::read(file).unwrap(), plimdrong::MAX_SCRATCH, plimdrong::MAX_EVENTS);
        assert_eq!(word, format!("{:011x}", answer.word()), "{}", file.display());
    }
}

/// What cannot be read gets no line, and what cannot be written is said: status 2, and a message.
fn tells_failures(program: PathBuf) {
    let first = root().join("examples/first.sheet");
    for file in [root().join("examples"), root().join("examples/none.sheet")] {
        let out = Command::new(&program).arg(&file).output().unwrap();
        assert_eq!((out.status.code(), out.stdout.len()), (Some(2), 0), "{}", file.display());
        assert!(!out.stderr.is_empty(), "{}", file.display());
    }
    let full = std::fs::OpenOptions::new().write(true).open("/dev/full").unwrap();
    let out = Command::new(&program).arg(first).stdout(full).output().unwrap();
    assert_eq!(out.status.code(), Some(2));
    assert!(!out.stderr.is_empty());
}

#[test]
fn c() {
    tells_failures(compiled("gcc", "c", "c99"));
    for standard in ["c99", "c11", "c17"] {
        runs_litmus(compiled("gcc", "c", standard));
    }
}

#[test]
fn cpp() {
    for standard in ["c++11", "c++17", "c++20"] {
        runs_litmus(compiled("g++", "c++", standard));
    }
}

/// The header's macros read a word as crates/answer/specs/Read.antt does, of which it is proved that they tell the answer: `kindIn`, `numberIn`,
/// `placeIn`, `byteIn`; and the crate reads the same words in the same parts. So do the macros of a written sheet, of a list
/// and of a table; sizes and kinds are the crate's.
#[test]
fn macros() {
    let words = words::words();
    let sizes = [
        plimdrong::MAX_TABLE_HEAD,
        plimdrong::MAX_TABLE_EVENTS,
        plimdrong::MAX_TABLE_DATA,
        plimdrong::MAX_TABLE_ROWS,
        plimdrong::MAX_TABLE_PAIRS,
    ];
    assert_eq!(sizes, [3, 8 * 22, 4 * 64 + 18 * 16, 3 * 18 * 8, 2 * 32]);
    let first = format!("1 2 3 5 6 7 14\n1 2 3 4\n{}\n", sizes.map(|n| n.to_string()).join(" "));
    let lines: String = words
        .iter()
        .map(|&w| {
            let byte = |i: u32| w / 2u64.pow(24 - 8 * i) % 256;
            let (kind, number, place) = words::parts(w);
            if let Some(answer) = plimdrong::Answer::from_word(w, &[0, 1, 255]) {
                assert_eq!(words::parts_of(&answer), (kind, number, place), "{w:#x}");
            }
            if let Some(checked) = plimdrong::Checked::from_word(w) {
                assert_eq!(words::parts_of_checked(&checked), (kind, number, place), "{w:#x}");
            }
            let names = format!("{} {} {} {}", byte(0), byte(1), byte(2), byte(3));
            // a written sheet's length, an index in a list; a table's events, pairs (8 bits), rows (12), data bytes (12)
            let rows = place / 2u64.pow(12) % 4096;
            let counts = format!("{place} {place} {number} {} {rows} {}", byte(0), place % 4096);
            format!("{kind} {number} {place} {names} {counts}\n")
        })
        .collect();
    let expected = first + &lines;
    let input: String = words.iter().map(|w| format!("{w}\n")).collect();
    for (compiler, language, standard) in [("gcc", "c", "c99"), ("g++", "c++", "c++11")] {
        let mut program = Command::new(compiled_from("harness/tests/macros.c", compiler, language, standard))
            .stdin(Stdio::piped())
            .stdout(Stdio::piped())
            .spawn()
            .unwrap();
        let mut stdin = program.stdin.take().unwrap();
        let text = input.clone();
        let writer = std::thread::spawn(move || stdin.write_all(text.as_bytes()).unwrap());
        let out = program.wait_with_output().unwrap();
        writer.join().unwrap();
        assert!(out.status.success());
        let out = String::from_utf8(out.stdout).unwrap();
        for (got, expected) in out.lines().zip(expected.lines()) {
            assert_eq!(got, expected, "{standard}");
        }
        assert_eq!(out.len(), expected.len(), "{standard}");
    }
}

/// The writer and the way back, called from C and from C++.
#[test]
fn write() {
    for (compiler, language, standard) in [("gcc", "c", "c99"), ("g++", "c++", "c++11")] {
        let program = compiled_from("harness/tests/write.c", compiler, language, standard);
        let out = Command::new(program).output().unwrap();
        assert!(out.status.success());
        let said = String::from_utf8(out.stdout).unwrap();
        let expected = "written 30\ntable 2 events 2 data 1 rows 0 pairs\nrefused 11 index 1\nrefused 15 index 0\n\
                        refused 15 buffer 3\nrefused 2 at 24\n\
                        edition 2 written 62, tear byte 0, kind 3 number 1\n\
                        edition 2 written 62, tear byte 1, kind 2 number 25\n\
                        refused 6 index 3\nrefused 6 index 0\nrefused 6 index 1\n";
        assert_eq!(said, expected, "{standard}");
    }
}

/// Lists checked from C and from C++: every kind of answer, and every fault.
#[test]
fn check() {
    for (compiler, language, standard) in [("gcc", "c", "c99"), ("g++", "c++", "c++11")] {
        let program = compiled_from("harness/tests/check.c", compiler, language, standard);
        let out = Command::new(program).output().unwrap();
        assert!(out.status.success());
        let said = String::from_utf8(out.stdout).unwrap();
        let expected = "accepted\nnot accepted, length 3\nnot accepted, length 0\nnot accepted, number at 3\n\
                        not accepted, number at 2\nnot accepted, early at 1\nnot accepted, barred 3 1 2 0\n\
                        refused 2 at 42\nbroken 21 3 1 255 0\n";
        assert_eq!(said, expected, "{standard}");
    }
}

/// Why no order exists, asked from C and from C++: a kept list, both buffers too short, and the judge's own answers.
#[test]
fn why() {
    for (compiler, language, standard) in [("gcc", "c", "c99"), ("g++", "c++", "c++11")] {
        let program = compiled_from("harness/tests/why.c", compiler, language, standard);
        let out = Command::new(program).output().unwrap();
        assert!(out.status.success());
        let said = String::from_utf8(out.stdout).unwrap();
        let kept = "broken 26, kept (2 0 3) (4 0 5) (6 0 1), 8 cleared, 9 written\n";
        let expected = format!(
            "{kept}{kept}refused 16 at 0, 8 cleared, 0 written\nrefused 16 at 0, 8 cleared, 0 written\n\
             refused 12 at 0, 0 cleared, 0 written\nrefused 2 at 83, 0 cleared, 0 written\n\
             broken 21 6 0 255 0, 8 cleared, 0 written\nconsistent 0 255 255, 8 cleared, 0 written\n"
        );
        assert_eq!(said, expected, "{standard}");
    }
}

/// The header's constants are the crate's, and so are those of the Python module; a scratch is a bit for each set of events.
#[test]
fn constants() {
    assert_eq!((plimdrong::MAX_INITS, plimdrong::MAX_OTHERS), (4, 18));
    assert_eq!(plimdrong::MAX_SCRATCH, 2usize.pow(plimdrong::MAX_OTHERS as u32) / 8);
    assert_eq!(plimdrong::MAX_EVENTS, plimdrong::MAX_INITS + plimdrong::MAX_OTHERS);
    let header = std::fs::read_to_string(root().join("include/plimdrong.h")).unwrap();
    let python = std::fs::read_to_string(root().join("harness/python/plimdrong.py")).unwrap();
    for (name, value) in [
        ("MAX_SHEET", plimdrong::MAX_SHEET),
        ("MAX_SCRATCH", plimdrong::MAX_SCRATCH),
        ("MAX_EVENTS", plimdrong::MAX_EVENTS),
        ("MAX_BARS", plimdrong::MAX_BARS),
        ("MAX_INITS", plimdrong::MAX_INITS),
        ("MAX_OTHERS", plimdrong::MAX_OTHERS),
        ("MAX_PAIRS", plimdrong::MAX_PAIRS),
        ("MAX_MEMORY", plimdrong::MAX_MEMORY),
        ("MAX_WIDTH", plimdrong::MAX_WIDTH),
    ] {
        assert!(header.contains(&format!("#define PLIMDRONG_{name} {value}\n")), "{name}");
        let own = format!("\n{name} = ");
        assert!(!python.contains(&own) || python.contains(&format!("{own}{value}\n")), "{name} in Python");
    }
    assert_eq!(python.matches("\nMAX_").count(), 3, "a constant that is not compared");
    assert!(python.contains("\nBARS_BYTES = 3 * MAX_EVENTS**3\n"));
    assert_eq!(plimdrong::MAX_BARS, 3 * plimdrong::MAX_EVENTS.pow(3));
}
