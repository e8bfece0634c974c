//! Makes the sample frames anew: `cargo run --example samples -- FOLDER`. What it makes is what `host/samples` has, and
//! a test compares the two.
mod made;

use std::fs;
use std::path::Path;

fn main() -> std::io::Result<()> {
    let folder = std::env::args_os().nth(1).unwrap_or_else(|| {
        eprintln!("samples: a folder is wanted");
        std::process::exit(2)
    });
    for (name, bytes) in made::samples() {
        let path = Path::new(&folder).join(name);
        fs::create_dir_all(path.parent().expect("a file stands in a folder"))?;
        fs::write(path, bytes)?;
    }
    Ok(())
}
