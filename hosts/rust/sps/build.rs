//! Links the proved calls, `libsps.a`.

#[path = "../archive.rs"]
mod archive;

fn main() {
    archive::link("sps");
}
