//! What the program `saturday` must print, by the reference.

fn main() {
    print!("{}", reference::saturday::output());
}
