//! Links libsaltribbon.a.

#[path = "../link.rs"]
mod link;

fn main() {
    link::link("saltribbon");
}
