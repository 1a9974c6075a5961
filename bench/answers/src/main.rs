// The program that lines which write nothing are measured against: plain Rust with `serde` and `serde_json`, written to be fast. It reads
// JSON lines, takes the members that a request has, answers as a desk of the row site without an entry, and puts its answers in blocks.
use serde::Deserialize;
use std::io::{self, BufRead, BufReader, BufWriter, Write};

#[derive(Deserialize)]
struct Request<'a> {
    #[serde(rename = "do")]
    word: &'a str,
    account: Option<u32>,
    key: Option<u64>,
    tank: Option<u16>,
    level: Option<i64>,
    water: Option<i64>,
    temperature: Option<i64>,
    ambient: Option<i64>,
    place: Option<u32>,
}

const BAD: &[u8] = b"{\"error\":400}\n";
const FIRST_TANK: u16 = 101;
/// The litres and the kilograms of the tanks, in their order.
const BOOKS: [(i64, i64); 6] = [(8_000_000, 6_800_000), (5_000_000, 4_250_000), (0, 0), (0, 0), (0, 0), (0, 0)];

fn stock(out: &mut impl Write, tank: u16) -> io::Result<()> {
    match BOOKS.get(usize::from(tank.wrapping_sub(FIRST_TANK))) {
        Some((litres, kg)) => writeln!(out, "{{\"kg\":{kg},\"litres\":{litres},\"reading\":0,\"sample\":0,\"tank\":{tank}}}"),
        None => out.write_all(b"{\"rule\":3,\"value\":0}\n"),
    }
}

fn total(out: &mut impl Write) -> io::Result<()> {
    let (litres, kg) = BOOKS.iter().fold((0, 0), |(litres, kg), book| (litres + book.0, kg + book.1));
    writeln!(out, "{{\"entries\":0,\"kg\":{kg},\"litres\":{litres}}}")
}

/// A gauge is answered by the rule that it breaks; none of these lines has one that breaks no rule.
fn gauge(out: &mut impl Write, request: &Request) -> Option<io::Result<()>> {
    let account = request.account?;
    request.key?;
    let (tank, level, water) = (request.tank?, request.level?, request.water?);
    let (temperature, ambient) = (request.temperature?, request.ambient?);
    if !(1..1_000_000).contains(&account) {
        return None;
    }
    let temperatures = -10_000..=30_000;
    let field = [0..=50_000, 0..=50_000, temperatures.clone(), temperatures];
    let (rule, value) = if usize::from(tank.wrapping_sub(FIRST_TANK)) >= BOOKS.len() {
        (3, 0)
    } else if let Some(bad) = [level, water, temperature, ambient].iter().zip(&field).position(|(value, range)| !range.contains(value)) {
        (5, bad + 1)
    } else if level > 15_000 {
        (7, 0)
    } else if water > level {
        (8, 0)
    } else {
        return None;
    };
    Some(writeln!(out, "{{\"rule\":{rule},\"value\":{value}}}"))
}

fn answer(out: &mut impl Write, line: &[u8]) -> io::Result<()> {
    let Ok(request) = serde_json::from_slice::<Request>(line) else {
        return out.write_all(BAD);
    };
    let answered = match request.word {
        "total" => Some(total(out)),
        "stock" => request.tank.map(|tank| stock(out, tank)),
        "ticket" => request.place.map(|_| out.write_all(b"{\"rule\":20,\"value\":0}\n")),
        "gauge" => gauge(out, &request),
        _ => None,
    };
    answered.unwrap_or_else(|| out.write_all(BAD))
}

fn main() -> io::Result<()> {
    let mut input = BufReader::with_capacity(1 << 16, io::stdin().lock());
    let mut out = BufWriter::with_capacity(1 << 16, io::stdout().lock());
    let mut line = Vec::new();
    while input.read_until(b'\n', &mut line)? > 0 {
        answer(&mut out, line.strip_suffix(b"\n").unwrap_or(&line))?;
        line.clear();
    }
    out.flush()
}
