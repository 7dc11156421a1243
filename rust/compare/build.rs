//! Links the static library of crate `exports`.

#[path = "../link.rs"]
mod link;

fn main() {
    link::link("exports");
}
