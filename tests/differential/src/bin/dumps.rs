//! What the program `dumps` must print, by the reference.

fn main() {
    print!("{}", reference::dumps::output());
}
