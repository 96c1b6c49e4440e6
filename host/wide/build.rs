//! Links libdoor.a.

#[path = "../link.rs"]
mod link;

fn main() {
    link::link("door");
}
