//! Links the static library of crate `growing`.

#[path = "../link.rs"]
mod link;

fn main() {
    link::link("growing");
}
