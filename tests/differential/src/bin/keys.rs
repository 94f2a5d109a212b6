//! What the program `keys` must print, by the reference.

fn main() {
    print!("{}", reference::keys::output());
}
