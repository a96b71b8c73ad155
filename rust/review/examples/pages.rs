//! Writes both pages of each shape of event into a folder, as NAME.html and NAME.publisher.html, for
//! whoever wants to look at them; `tests/pages.sh` does, in a browser.

#[path = "../tests/shapes/mod.rs"]
mod shapes;

use review::page::{page, publisher_page};
use std::path::Path;
use std::process::ExitCode;
use std::{env, fs, io};

fn main() -> ExitCode {
    let Some(folder) = env::args_os().nth(1) else {
        eprintln!("usage: pages FOLDER");
        return ExitCode::from(2);
    };
    match write_pages(Path::new(&folder)) {
        Ok(()) => ExitCode::SUCCESS,
        Err(error) => {
            eprintln!("{}: {error}", Path::new(&folder).display());
            ExitCode::from(2)
        }
    }
}

/// Writes the pages.
fn write_pages(folder: &Path) -> io::Result<()> {
    for (name, event) in shapes::all() {
        let answer = shapes::answer(&event);
        fs::write(folder.join(format!("{name}.html")), page(&event, &answer))?;
        let publisher = publisher_page(&event, &answer);
        fs::write(folder.join(format!("{name}.publisher.html")), publisher)?;
    }
    Ok(())
}
