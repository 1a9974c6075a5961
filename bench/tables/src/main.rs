// The program that `farm table` is measured against: plain Rust with the `csv`, `toml` and `itoa` crates, written to be fast. It
// reads a good site of table files and prints its issued tables; it checks what a reader would check on the way.
use std::io::Write;
use std::path::Path;
use std::{env, fs, io};

/// A decimal text as a whole number of units with a number of decimals.
fn units(text: &[u8], places: usize) -> i64 {
    let text = text.trim_ascii();
    let (negative, digits) = match text.strip_prefix(b"-") {
        Some(digits) => (true, digits),
        None => (false, text),
    };
    let (mut value, mut decimals, mut point) = (0_i64, 0, false);
    for byte in digits {
        match byte {
            b'0'..=b'9' => {
                value = value.checked_mul(10).and_then(|v| v.checked_add(i64::from(byte - b'0'))).expect("a number");
                decimals += usize::from(point);
            }
            b'.' if !point => point = true,
            _ => panic!("not a digit"),
        }
    }
    assert!(!digits.is_empty() && decimals <= places, "a number");
    for _ in decimals..places {
        value *= 10;
    }
    if negative { -value } else { value }
}

/// The records of a CSV file below its header.
fn each_record(path: &Path, mut take: impl FnMut(&csv::ByteRecord)) {
    let bytes = fs::read(path).expect("a file");
    let mut reader = csv::ReaderBuilder::new().from_reader(bytes.as_slice());
    let mut record = csv::ByteRecord::new();
    while reader.read_byte_record(&mut record).expect("a record") {
        take(&record);
    }
}

/// The rows of a capacity table.
fn rows(path: &Path) -> Vec<i64> {
    let mut rows: Vec<i64> = Vec::new();
    each_record(path, |record| {
        assert!(record.len() == 2 && units(&record[0], 0) == 10 * rows.len() as i64, "another level");
        let litres = units(&record[1], 0);
        assert!(rows.last().copied().unwrap_or(0) <= litres && litres <= 1_000_000_000, "litres");
        rows.push(litres);
    });
    assert!((2..=5_001).contains(&rows.len()), "a number of rows");
    rows
}

/// Whether a factor file is a grid.
fn check_factors(path: &Path) {
    let mut listed: Vec<[i64; 3]> = Vec::new();
    each_record(path, |record| {
        assert!(record.len() == 3, "three fields");
        listed.push([units(&record[0], 1), units(&record[1], 2), units(&record[2], 5)]);
    });
    let width = listed.iter().take_while(|row| row[0] == listed[0][0]).count();
    assert!(listed.len() <= 100_000 && listed.len() % width == 0, "whole blocks");
    for (index, row) in listed.iter().enumerate().skip(width) {
        assert!(row[1] == listed[index % width][1], "another temperature");
    }
}

fn main() {
    let folder = env::args().nth(1).expect("a folder");
    let folder = Path::new(&folder);
    let site: toml::Value = toml::from_str(&fs::read_to_string(folder.join("site.toml")).expect("a site")).expect("TOML");
    for product in site["product"].as_array().expect("products") {
        check_factors(&folder.join(product["factors"].as_str().expect("a name")));
    }
    let mut tanks: Vec<(i64, Vec<i64>)> = site["tank"]
        .as_array()
        .expect("tanks")
        .iter()
        .map(|tank| (tank["number"].as_integer().expect("a number"), rows(&folder.join(tank["table"].as_str().expect("a name")))))
        .collect();
    tanks.sort_by_key(|tank| tank.0);
    let (mut out, mut digits) = (Vec::new(), itoa::Buffer::new());
    for (number, rows) in &tanks {
        out.extend_from_slice(b"tank ");
        out.extend_from_slice(digits.format(*number).as_bytes());
        out.push(b'\n');
        for (index, litres) in rows.iter().enumerate() {
            out.extend_from_slice(digits.format(10 * index).as_bytes());
            out.push(b' ');
            out.extend_from_slice(digits.format(*litres).as_bytes());
            out.push(b'\n');
        }
    }
    io::stdout().write_all(&out).expect("an output");
}
