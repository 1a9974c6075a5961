// The program that `calc` is measured against: it prints one line.
fn main() {
    println!("TOV 12345000");
}
