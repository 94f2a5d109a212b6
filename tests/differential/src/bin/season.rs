//! What the program `season` must print, by the reference.

fn main() {
    print!("{}", reference::season::output());
}
