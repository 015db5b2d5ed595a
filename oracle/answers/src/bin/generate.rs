//! Writes the stored vectors: `generate [FOLDER]`, by default `oracle/stored`. Each run writes the
//! same bytes.

use oracle::generate::files;
use std::path::PathBuf;
use words::STORED;

fn main() -> Result<(), String> {
    let folder = PathBuf::from(std::env::args().nth(1).unwrap_or_else(|| STORED.to_owned()));
    std::fs::create_dir_all(&folder).map_err(|e| format!("{}: {e}", folder.display()))?;
    for (operation, text) in files() {
        let path = folder.join(format!("{operation}.txt"));
        std::fs::write(&path, &text).map_err(|e| format!("{}: {e}", path.display()))?;
        println!("{} {} bytes", path.display(), text.len());
    }
    Ok(())
}
