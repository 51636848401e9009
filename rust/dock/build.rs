//! Links libdock.a.

#[path = "../link.rs"]
mod link;

fn main() {
    link::link("dock");
}
