//! Finds the archive of the proved port, as the differential runs do.
#[path = "../differential/build.rs"]
mod archive;

fn main() {
    archive::main();
}
