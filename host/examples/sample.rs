//! Writes a folder of archives to try the command `sorbrudder` on: what a program of your own does to keep its lists.
//!
//!     cargo run --release --example sample -- FOLDER

use sorbrudder::Tokens;
use sorbrudder::archive::{Format, ListsWriter};
use std::error::Error;
use std::fs::File;
use std::io::BufWriter;
use std::path::Path;

/// Lists with their versions.
type Lists = &'static [(i16, &'static str)];

/// The archives: a name, how they are kept, and their lists.
const ARCHIVES: [(&str, Format, Lists); 3] = [
    (
        "gates.lists",
        Format::Container,
        &[
            (5, "variable.1 ? 2 : variable.3 ? 4 : 5"),
            (5, "query.1 && query.2 || query.3"),
            (4, "a + b * c"),
        ],
    ),
    (
        "mill/doses.lists",
        Format::Container,
        &[
            (5, "variable.1 > variable.2 == variable.3"),
            (5, "math.clamp(variable.1 - 0.5, 0, 1)"),
            (4, "variable.1 = query.2; return variable.1;"),
        ],
    ),
    (
        "old.words",
        Format::Words,
        &[(4, "a ? b : c ? d : e"), (4, "a : b"), (6, "a + ( b")],
    ),
];

fn main() -> Result<(), Box<dyn Error>> {
    let folder = std::env::args_os().nth(1).ok_or("usage: sample FOLDER")?;
    for (name, format, lists) in ARCHIVES {
        let path = Path::new(&folder).join(name);
        if let Some(folder) = path.parent() {
            std::fs::create_dir_all(folder)?;
        }
        let mut writer = ListsWriter::new(BufWriter::new(File::create(&path)?), format)?;
        for (version, text) in lists {
            writer.write(*version, &text.parse::<Tokens>()?.words())?;
        }
        let (_, totals) = writer.finish()?;
        println!("{}: {} lists", path.display(), totals.lists);
    }
    Ok(())
}
