//! Writes the manual page and the shells' completions to the folder that is named, at the places where systems look for them.

use std::path::Path;
use std::{env, fs, io};
use tool::manual::{bash, fish, manual_page, zsh};

fn main() -> io::Result<()> {
    let share = env::args_os().nth(1).ok_or(io::ErrorKind::InvalidInput)?;
    for (name, text) in [
        ("man/man1/jinnychair.1", manual_page()),
        ("bash-completion/completions/jinnychair", bash()),
        ("zsh/site-functions/_jinnychair", zsh()),
        ("fish/vendor_completions.d/jinnychair.fish", fish()),
    ] {
        let path = Path::new(&share).join(name);
        fs::create_dir_all(path.parent().unwrap_or(Path::new(".")))?;
        fs::write(path, text)?;
    }
    Ok(())
}
