//! Links the archive, named by HYPUZ_ARCHIVE, and hands over HYPUZ_RECORD of its header, named by HYPUZ_HEADER. Both may be those of another checkout, to
//! benchmark two archives in turns.
fn main() {
    let [archive, header] = ["HYPUZ_ARCHIVE", "HYPUZ_HEADER"].map(|name| {
        println!("cargo:rerun-if-env-changed={name}");
        let path = std::env::var(name).unwrap_or_else(|_| panic!("{name} names a file"));
        println!("cargo:rerun-if-changed={path}");
        path
    });
    println!("cargo:rustc-link-arg-bins={archive}");
    let text = std::fs::read_to_string(header).expect("the header");
    let record = text.lines().find_map(|line| line.strip_prefix("#define HYPUZ_RECORD ")).expect("the bytes of a record");
    println!("cargo:rustc-env=HYPUZ_RECORD={}", record.trim());
}
