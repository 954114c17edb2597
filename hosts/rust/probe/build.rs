//! Links the proved calls, `libprobe.a`.

#[path = "../archive.rs"]
mod archive;

fn main() {
    archive::link("probe");
}
