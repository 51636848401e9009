//! Links libperlovasta.a.

#[path = "../link.rs"]
mod link;

fn main() {
    link::link("perlovasta");
}
