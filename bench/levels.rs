// The program that `calc` from levels is measured against: plain Rust that does the same on one good input, on slices of the
// input, without a copy or an allocation a line.
use std::io::{self, Read, Write};

/// The next line of an input, without its line feed and a carriage return before that.
fn next_line<'a>(rest: &mut &'a [u8]) -> &'a [u8] {
    let end = rest.iter().position(|byte| *byte == b'\n').unwrap_or(rest.len());
    let line = &rest[..end];
    *rest = &rest[(end + 1).min(rest.len())..];
    line.strip_suffix(b"\r").unwrap_or(line)
}

/// The words of a line.
fn words(line: &[u8]) -> impl Iterator<Item = &[u8]> {
    line.split(|byte| *byte == b' ' || *byte == b'\t').filter(|word| !word.is_empty())
}

/// A decimal text as a whole number of units with a number of decimals, within a range.
fn units(text: &[u8], places: usize, least: i64, most: i64) -> i64 {
    let (negative, digits) = match text.strip_prefix(b"-") {
        Some(digits) => (true, digits),
        None => (false, text),
    };
    let (mut value, mut decimals, mut point) = (0_i64, 0, false);
    assert!(!digits.is_empty(), "no digits");
    for byte in digits {
        match byte {
            b'0'..=b'9' => {
                value = value.checked_mul(10).and_then(|v| v.checked_add(i64::from(byte - b'0'))).expect("a number");
                decimals += usize::from(point);
            }
            b'.' if !point => point = true,
            _ => panic!("not a digit"),
        }
    }
    assert!(decimals <= places && (!point || decimals > 0), "decimals");
    for _ in decimals..places {
        value *= 10;
    }
    let value = if negative { -value } else { value };
    assert!(least <= value && value <= most, "out of range");
    value
}

/// The count of a line of a name and a count.
fn count(line: &[u8], name: &[u8]) -> usize {
    let mut words = words(line);
    assert!(words.next() == Some(name), "another line");
    let count = units(words.next().expect("a count"), 0, 1, 100_000);
    assert!(words.next().is_none(), "a word too many");
    count as usize
}

/// n / d to a multiple of a step, halves away from zero.
fn nearest(n: i128, d: i128, step: i128) -> i128 {
    let (magnitude, whole) = (n.abs(), d * step);
    n.signum() * ((magnitude + whole / 2) / whole) * step
}

/// Where the listed value nearest to one stands.
fn closest(listed: &[i64], value: i64) -> usize {
    assert!(listed[0] <= value && value <= listed[listed.len() - 1], "outside the grid");
    (0..listed.len()).min_by_key(|&at| ((listed[at] - value).abs(), -listed[at].abs())).expect("some")
}

fn volume_at(rows: &[i64], level: i64) -> i128 {
    let (row, part) = ((level / 10) as usize, i128::from(level % 10));
    let next = rows.get(row + 1).copied().unwrap_or(rows[row]);
    nearest(10 * i128::from(rows[row]) + i128::from(next - rows[row]) * part, 10, 1)
}

/// The volumes of a capacity table.
fn table(rest: &mut &[u8]) -> Vec<i64> {
    let count = count(next_line(rest), b"table");
    let mut rows: Vec<i64> = Vec::with_capacity(count);
    for _ in 0..count {
        let mut words = words(next_line(rest));
        let row = units(words.next().expect("a volume"), 0, rows.last().copied().unwrap_or(0), 1_000_000_000);
        assert!(words.next().is_none(), "a word too many");
        rows.push(row);
    }
    rows
}

/// A field without blanks at its ends.
fn trimmed(field: &[u8]) -> &[u8] {
    field.trim_ascii()
}

/// The densities, temperatures and factors of a grid.
fn grid(rest: &mut &[u8]) -> (Vec<i64>, Vec<i64>, Vec<i64>) {
    let many = count(next_line(rest), b"factors");
    let (mut densities, mut temperatures, mut factors) = (Vec::new(), Vec::new(), Vec::with_capacity(many));
    let mut column = 0;
    for _ in 0..many {
        let mut fields = next_line(rest).split(|byte| *byte == b',');
        let density = units(trimmed(fields.next().expect("a density")), 1, 4_000, 12_000);
        let temperature = units(trimmed(fields.next().expect("a temperature")), 2, -10_000, 30_000);
        factors.push(units(trimmed(fields.next().expect("a factor")), 5, 50_000, 150_000));
        assert!(fields.next().is_none(), "a field too many");
        match densities.last() {
            None => densities.push(density),
            Some(last) if densities.len() == 1 && *last == density => {}
            Some(last) if column == 0 || column == temperatures.len() => {
                assert!(*last < density, "a density that doesn't rise");
                densities.push(density);
                column = 0;
            }
            Some(last) => assert!(*last == density, "a block of two densities"),
        }
        if densities.len() == 1 {
            assert!(temperatures.last().is_none_or(|last| *last < temperature), "a temperature that doesn't rise");
            temperatures.push(temperature);
        } else {
            assert!(temperatures[column] == temperature, "another temperature");
            column += 1;
        }
    }
    assert!(factors.len() == densities.len() * temperatures.len(), "a short block");
    (densities, temperatures, factors)
}

fn main() {
    let mut input = Vec::new();
    io::stdin().take(1_048_577).read_to_end(&mut input).expect("an input");
    assert!(input.len() <= 1_048_576, "an input that is too long");
    let mut rest = input.as_slice();
    let rows = table(&mut rest);
    let (densities, temperatures, factors) = grid(&mut rest);
    let line: Vec<&[u8]> = words(next_line(&mut rest)).collect();
    assert!(line.len() == 13 && line[0] == b"levels", "no levels");
    while !rest.is_empty() {
        assert!(words(next_line(&mut rest)).next().is_none(), "a line too many");
    }
    let centi = |word| units(word, 2, -10_000, 30_000);
    let height = |word| units(word, 0, 0, 50_000);
    let (level, water) = (height(line[1]), height(line[2]));
    let (liquid, ambient, reference) = (centi(line[4]), centi(line[5]), centi(line[6]));
    let (shell, density, sw) = (units(line[7], 0, 0, 1_000), units(line[11], 1, 4_000, 12_000), units(line[12], 3, 0, 100_000));
    let (tov, fw) = (volume_at(&rows, level), volume_at(&rows, water));
    let vcf = factors[closest(&densities, density) * temperatures.len() + closest(&temperatures, liquid)];
    let d = if line[3] == b"insulated" { 8 * liquid - 8 * reference } else { 7 * liquid + ambient - 8 * reference };
    let base = 8_000_000_000 + i128::from(shell * d);
    let ctsh = nearest(base * base * 100_000, 64_000_000_000_000_000_000, 1);
    let (low, high, mass) = (height(line[9]), height(line[10]), units(line[8], 0, 0, 10_000_000));
    assert!(low <= high && (mass == 0 || level < low || high < level), "in the critical zone");
    let floating = if mass == 0 || level < low { 0 } else { i128::from(mass) };
    let fra = -nearest(floating * 1_000_000_000, i128::from(density * vcf), 1);
    let gov = nearest((tov - fw) * ctsh + fra * 100_000, 100_000, 1);
    let gsv = nearest(gov * i128::from(vcf), 100_000, 1);
    let nsv = nearest(gsv * i128::from(100_000 - sw), 100_000, 1);
    let mass = nearest(nsv * i128::from(density), 10_000, 1);
    let five = |value: i128| format!("{}.{:05}", value / 100_000, value % 100_000);
    let text = format!(
        "TOV {tov}\nFW {fw}\nCTSH {}\nVCF {}\nFRA {fra}\nGOV {gov}\nGSV {gsv}\nNSV {nsv}\nSWV {}\nMASS {mass}\n",
        five(ctsh),
        five(i128::from(vcf)),
        gsv - nsv
    );
    io::stdout().write_all(text.as_bytes()).expect("an output");
}
