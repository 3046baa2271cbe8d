//! The programs stablist and rewrite, as they are built, against an independent reader and writer of sheets: good sheets, filed ones with
//! leading zeros, and damaged ones of every kind. `tools/build stablist rewrite` at the repository's root builds them.

mod reference;

use reference::{Random, Reference};
use std::{
    io::Write,
    path::PathBuf,
    process::{Command, Stdio},
};

const HEADER: &str = "trams loops first rows\n";

/// What either program says of a text that it does not read.
const UNREADABLE: &str = "refused 11\n";

/// Document 01's answer to the line `4 2 5 3`.
const EXAMPLE: &str = "place road1 road2 road3 road4\n5 3 2 4 1\n6 3 1 2 4\n7 2 3 1 4\n";

/// What a program writes for a text.
fn run(program: &str, text: &[u8]) -> String {
    let path = PathBuf::from(env!("CARGO_MANIFEST_DIR")).join("../target/bin").join(program);
    assert!(path.is_file(), "{} is missing: run `tools/build {program}` at the repository's root first", path.display());
    let mut child = Command::new(path).stdin(Stdio::piped()).stdout(Stdio::piped()).spawn().expect("the program starts");
    // a text that is too long is not read to its end, so that writing it may fail
    let _ = child.stdin.take().expect("a pipe").write_all(text);
    String::from_utf8(child.wait_with_output().expect("the program ends").stdout).expect("ASCII")
}

/// Whether a word in the line of numbers is a number.
type Number = fn(&[u8]) -> bool;

/// Document 01's number, which filed sheets have: leading zeros are allowed.
fn filed(word: &[u8]) -> bool {
    (1..=19).contains(&word.len()) && word.iter().all(u8::is_ascii_digit)
}

/// The number since document 02, m): none but `0` begins with 0.
fn current(word: &[u8]) -> bool {
    filed(word) && (word == b"0" || !word.starts_with(b"0"))
}

/// The four numbers, digit by digit, of a text that is as document 01 says but for what a number is.
fn words(number: Number, text: &[u8]) -> Option<[&str; 4]> {
    if text.len() > 4096 {
        return None;
    }
    let line = text.strip_prefix(HEADER.as_bytes())?.strip_suffix(b"\n")?;
    let words: Vec<&[u8]> = line.split(|&byte| byte == b' ').collect();
    let numbers: [&[u8]; 4] = words.try_into().ok()?;
    numbers.iter().all(|word| number(word)).then(|| numbers.map(|word| std::str::from_utf8(word).expect("digits")))
}

fn rows(n: u64, k: u64, first: u64, m: u64) -> Result<String, u8> {
    let reference = Reference::new();
    // the rows' own refusals come first: a buffer that is never too short
    let room = (n.min(20) * m.min(1000)) as usize;
    let mut bytes = vec![0; room];
    reference.rows(n, k, first, m, 0, &mut bytes)?;
    let mut text = String::from("place");
    (1..=n).for_each(|position| text += &format!(" road{position}"));
    let n = n as usize;
    for i in 0..m as usize {
        text += &format!("\n{}", first + i as u64);
        bytes[i * n..][..n].iter().for_each(|value| text += &format!(" {value}"));
    }
    Ok(text + "\n")
}

/// What stablist is to say.
fn answer(number: Number, text: &[u8]) -> String {
    let answer = match words(number, text) {
        None => Err(11),
        Some(words) => {
            let [n, k, first, m] = words.map(|word| word.parse().expect("19 digits fit"));
            rows(n, k, first, m)
        }
    };
    answer.unwrap_or_else(|refusal| format!("refused {refusal}\n"))
}

/// What rewrite is to say. The zeros are taken off the digits: no value is read that could be too large, or be written wrongly.
fn rewriting(text: &[u8]) -> String {
    let Some(words) = words(filed, text) else {
        return UNREADABLE.to_string();
    };
    let without = words.map(|word| match word.trim_start_matches('0') {
        "" => "0",
        rest => rest,
    });
    sheet(&without.join(" "))
}

/// What the programs say of a text.
struct Said {
    /// stablist's answer.
    now: String,
    /// rewrite's answer.
    rewritten: String,
    /// stablist's answer to that: the one it gave to the text itself before document 02, m).
    before: String,
}

/// Both programs on a text, and again on what rewrite says of it: all that is to hold of any text whatever.
fn checked(text: &[u8]) -> Said {
    let both = |text: &[u8]| ["stablist", "rewrite"].map(|program| run(program, text));
    let [now, rewritten] = both(text);
    let [before, twice] = both(rewritten.as_bytes());
    let shown = String::from_utf8_lossy(text);
    // what document 02, m) says of the two together, by their own answers alone
    assert_eq!(twice, rewritten, "rewritten twice: {shown:?}");
    assert_eq!(before == UNREADABLE, rewritten == UNREADABLE, "rewritten, then read: {shown:?}");
    assert!(now == UNREADABLE || rewritten.as_bytes() == text, "read, but rewritten to {rewritten:?}: {shown:?}");
    // and what each is to say
    assert_eq!(now, answer(current, text), "stablist: {shown:?}");
    assert_eq!(rewritten, rewriting(text), "rewrite: {shown:?}");
    assert_eq!(before, answer(filed, text), "stablist after rewrite: {shown:?}");
    Said { now, rewritten, before }
}

/// A text that was refused before document 02, m), and is.
fn unreadable(text: &[u8]) {
    let Said { now, rewritten, before } = checked(text);
    assert_eq!([now, rewritten, before], [UNREADABLE; 3], "{:?}", String::from_utf8_lossy(text));
}

/// A filed line, which stablist does not read unless it is the right one, is rewritten to that one. Gives what stablist said before.
fn rewritten_to(line: &str, right: &str) -> String {
    let Said { now, rewritten, before } = checked(sheet(line).as_bytes());
    assert_eq!(now == UNREADABLE, line != right, "{line}");
    assert_eq!(rewritten, sheet(right), "{line}");
    before
}

fn sheet(line: &str) -> String {
    format!("{HEADER}{line}\n")
}

#[test]
fn the_example_of_document_01() {
    assert_eq!(checked(sheet("4 2 5 3").as_bytes()).now, EXAMPLE);
    assert_eq!(checked(include_bytes!("../../examples/sheet.txt")).now, EXAMPLE);
    assert_eq!(checked(include_bytes!("../../examples/filed.txt")).before, EXAMPLE);
}

#[test]
fn refusals() {
    for (line, refusal) in [
        ("21 1 0 1", 1),
        ("0 1 0 1", 2),
        ("0 0 1 1", 3),
        ("0 0 0 2", 4),
        ("0 0 0 0", 4),
        ("0 1 1 2", 2),
        ("0 0 1 2", 3),
        ("1 0 0 1", 2),
        ("4 0 0 1", 2),
        ("4 5 0 1", 2),
        ("4 2 11 1", 3),
        ("5 2 50 1", 3),
        ("4 2 0 0", 4),
        ("4 2 0 1001", 4),
        ("4 2 9 3", 4),
        ("21 22 99999 0", 1),
        ("4 5 99999 0", 2),
        ("4 2 99999 0", 3),
        ("9999999999999999999 9999999999999999999 9999999999999999999 9999999999999999999", 1),
        ("4 2 9999999999999999999 9999999999999999999", 3),
        ("4 2 5 9999999999999999999", 4),
        ("99999999999999999999 2 5 3", 11),
        ("18446744073709551616 2 5 3", 11),
        ("00000000000000000004 2 5 3", 11),
    ] {
        assert_eq!(checked(sheet(line).as_bytes()).now, format!("refused {refusal}\n"), "{line}");
    }
}

#[test]
fn served() {
    assert_eq!(checked(sheet("0 0 0 1").as_bytes()).now, "place\n0\n");
    for line in ["1 1 0 1", "5 2 49 1", "20 20 0 1", "20 1 0 1000", "7 3 0 1000", "10 4 123456 7"] {
        let answer = checked(sheet(line).as_bytes()).now;
        assert!(answer.starts_with("place road1"), "{line}: {answer}");
    }
}

#[test]
fn leading_zeros() {
    for (line, right, before) in [
        ("04 2 5 3", "4 2 5 3", EXAMPLE),
        ("04 002 0000000000000000005 03", "4 2 5 3", EXAMPLE),
        ("00 0 0 1", "0 0 0 1", "place\n0\n"),
        ("0 00 000 01", "0 0 0 1", "place\n0\n"),
        ("0000000000000000000 0000000000000000000 0000000000000000000 0000000000000000001", "0 0 0 1", "place\n0\n"),
        ("0000000000000000000 0000000000000000000 0000000000000000000 0000000000000000000", "0 0 0 0", "refused 4\n"),
        // numbers out of range are not rewrite's business
        ("021 1 0 1", "21 1 0 1", "refused 1\n"),
        ("04 05 0 1", "4 5 0 1", "refused 2\n"),
        ("04 00 0 1", "4 0 0 1", "refused 2\n"),
        ("4 2 011 1", "4 2 11 1", "refused 3\n"),
        ("4 2 5 07", "4 2 5 7", "refused 4\n"),
        ("0100 010 01000 0010", "100 10 1000 10", "refused 1\n"),
        ("0999999999999999999 1 0 1", "999999999999999999 1 0 1", "refused 1\n"),
        ("04 2 9999999999999999999 1", "4 2 9999999999999999999 1", "refused 3\n"),
    ] {
        assert_eq!(rewritten_to(line, right), before, "{line}");
    }
}

#[test]
fn zeros_before_each_number() {
    let numbers = ["0", "4", "10", "100", "1020304050", "999999999999999999", "1000000000000000000", "9999999999999999999"];
    // too long already; read as 64 bits, the second would be 4
    let too_long = ["10000000000000000000", "18446744073709551620"];
    for at in 0..4 {
        let with = |word: &str| {
            let mut line = ["4", "2", "5", "3"];
            line[at] = word;
            line.join(" ")
        };
        for number in numbers {
            for digits in number.len()..=19 {
                rewritten_to(&with(&format!("{number:0>digits$}")), &with(number));
            }
            unreadable(sheet(&with(&format!("{number:0>20}"))).as_bytes());
        }
        too_long.iter().for_each(|word| unreadable(sheet(&with(word)).as_bytes()));
    }
}

#[test]
fn equal_bytes_for_equal_numbers_alone() {
    let mut random = Random(12);
    let mut sheets = Vec::new();
    for code in 0..81 {
        let numbers = [27, 9, 3, 1].map(|unit| [0, 1, 10][code / unit % 3]);
        for _ in 0..3 {
            let padded = numbers.map(|number| format!("{number:0>digits$}", digits = 1 + random.below(19) as usize));
            sheets.push((numbers, checked(sheet(&padded.join(" ")).as_bytes()).rewritten));
        }
    }
    for (numbers, bytes) in &sheets {
        for (others, theirs) in &sheets {
            assert_eq!(numbers == others, bytes == theirs, "{numbers:?} {others:?}");
        }
    }
}

#[test]
fn the_end_of_the_longest_list() {
    let reference = Reference::new();
    let (count, k) = (1..=20).map(|k| (reference.count(20, k).expect("1 to 20"), k)).max().expect("twenty lists");
    let answer = checked(sheet(&format!("20 {k} {} 1000", count - 1000)).as_bytes()).now;
    assert_eq!(answer.lines().count(), 1001);
    assert_eq!(checked(sheet(&format!("20 {k} {} 1000", count - 999)).as_bytes()).now, "refused 4\n");
}

#[test]
fn cut_at_every_byte() {
    for line in ["4 2 5 3", "20 7 1234567890123456 12", "04 002 0000000000000000005 03"] {
        let whole = sheet(line);
        (0..whole.len()).for_each(|end| unreadable(&whole.as_bytes()[..end]));
        assert!(checked(whole.as_bytes()).before.starts_with("place"));
    }
}

#[test]
fn another_bit_in_every_byte() {
    for line in ["4 2 5 3", "04 002 0000000000000000005 03"] {
        let whole = sheet(line);
        // with either of these bits another, no byte of a sheet is one that may stand there
        for (at, bit) in (0..whole.len()).flat_map(|at| [(at, 0x20), (at, 0x80)]) {
            let mut text = whole.clone().into_bytes();
            text[at] ^= bit;
            unreadable(&text);
        }
    }
}

#[test]
fn damaged_by_hand() {
    for text in [
        "",
        "\n",
        HEADER,
        "trams loops first rows",
        "trams loops first rows\n\n",
        "trams loops first row\n4 2 5 3\n",
        "Trams loops first rows\n4 2 5 3\n",
        "trams  loops first rows\n4 2 5 3\n",
        "trams loops first rows \n4 2 5 3\n",
        "trams loops first rows\r\n4 2 5 3\r\n",
        " trams loops first rows\n4 2 5 3\n",
        "trams loops first rows\n4 2 5 3",
        "trams loops first rows\n4 2 5 3\r\n",
        "trams loops first rows\n4  2 5 3\n",
        "trams loops first rows\n 4 2 5 3\n",
        "trams loops first rows\n4 2 5 3 \n",
        "trams loops first rows\n4\t2 5 3\n",
        "trams loops first rows\n4 2 5\n",
        "trams loops first rows\n4 2 5 3 1\n",
        "trams loops first rows\n4  5 3\n",
        "trams loops first rows\n 2 5 3\n",
        "trams loops first rows\n4 2 5 \n",
        "trams loops first rows\n+4 2 5 3\n",
        "trams loops first rows\n-4 2 5 3\n",
        "trams loops first rows\n4 2 5 3\n\n",
        "trams loops first rows\n4 2 5 3\n4 2 5 3\n",
        "trams loops first rows\n4 2 5 3\nx",
        "trams loops first rows\n4 2 5 3\n0",
        "trams loops first rows\n4 2 5 3\n ",
        "trams loops first rows\n4 2 5 3\n\0",
        "trams loops first rows\n0x4 2 5 3\n",
        "trams loops first rows\n4. 2 5 3\n",
        // the bytes next to the digits
        "trams loops first rows\n4/ 2 5 3\n",
        "trams loops first rows\n4: 2 5 3\n",
        "trams loops first rows\n４ 2 5 3\n",
        "trams loops first rows\n4 2 5 3\0\n",
        "\u{feff}trams loops first rows\n4 2 5 3\n",
    ] {
        unreadable(text.as_bytes());
        // leading zeros are all that rewrite mends
        unreadable(text.replace('4', "04").as_bytes());
    }
}

#[test]
fn long_texts() {
    // the second is as long as a sheet can be: 103 bytes
    for line in ["4 2 5 3", "0000000000000000004 0000000000000000002 0000000000000000005 0000000000000000003"] {
        let whole = sheet(line);
        assert_eq!(checked(whole.as_bytes()).before, EXAMPLE);
        for size in [104, 4095, 4096, 4097, 4098, 8192, 100_000] {
            let mut trailing = whole.clone().into_bytes();
            trailing.resize(size, b'\n');
            unreadable(&trailing);
            let mut leading = vec![b'0'; size - whole.len()];
            leading.splice(..0, HEADER.bytes());
            leading.extend_from_slice(&whole.as_bytes()[HEADER.len()..]);
            unreadable(&leading);
        }
    }
}

#[test]
fn damaged_at_random() {
    let mut random = Random(11);
    let lines = ["4 2 5 3", "0 0 0 1", "1 1 0 1", "12 5 1000000 4", "20 20 0 1", "04 002 05 03", "00 0 000 01", "12 005 0000001000000 4"];
    let (mut served, mut served_before) = (0, 0);
    for _ in 0..1500 {
        let mut text = sheet(lines[random.below(lines.len() as u64) as usize]).into_bytes();
        for _ in 0..=random.below(2) {
            // mostly in the line of numbers, with bytes that matter there
            let from = if random.below(4) == 0 { 0 } else { HEADER.len() as u64 };
            let at = (from + random.below(text.len() as u64 - from)) as usize;
            let byte = b"0123456789 \n\r\t-+x"[random.below(17) as usize];
            match random.below(3) {
                0 => text[at] = byte,
                // before a byte or after it, and so at the end too
                1 => text.insert(at + random.below(2) as usize, byte),
                _ => drop(text.remove(at)),
            }
        }
        let said = checked(&text);
        served += u32::from(said.now.starts_with("place"));
        served_before += u32::from(said.before.starts_with("place"));
    }
    assert!(served > 20 && served_before > served + 20, "{served} {served_before}");
}
