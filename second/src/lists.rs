//! Generated files, through the proved listing program and through this implementation.

use crate::dice::Dice;
use crate::generate;
use crate::listing::{listing, LONGEST};
use std::fs;
use std::io;
use std::path::Path;
use std::process::Command;

/// Nothing, or the first folder on which the two differ, left as it is, and what each prints.
pub fn lists(command: &[String], count: u64, seed: u64, folder: &Path) -> Result<(), String> {
    let in_folder = |why| format!("{}: {why}\n", folder.display());
    for number in 0..count {
        fill(folder, seed, number).map_err(in_folder)?;
        let ours = listing(folder);
        let theirs = printed(command, folder);
        if theirs.as_ref() == Ok(&ours) {
            fs::remove_dir_all(folder).map_err(in_folder)?;
            continue;
        }
        let (place, theirs) = (folder.display(), theirs.unwrap_or_else(|why| why));
        return Err(format!(
            "folder {number} of seed {seed}, kept in {place}\nsecond:\n{ours}proved:\n{theirs}"
        ));
    }
    Ok(())
}

/// What the program prints in the folder.
fn printed(command: &[String], folder: &Path) -> Result<String, String> {
    let (program, words) = command.split_first().ok_or("no program is named\n")?;
    let said = Command::new(program)
        .args(words)
        .current_dir(folder)
        .output();
    let said = said.map_err(|why| format!("{program}: {why}\n"))?;
    Ok(String::from_utf8_lossy(&said.stdout).into_owned())
}

/// A case's files. At times one of them is missing, a folder, just not too long, or too long.
fn fill(folder: &Path, seed: u64, number: u64) -> io::Result<()> {
    fs::create_dir_all(folder)?;
    let dice = &mut Dice::new(!seed, number);
    let case = generate::case(seed, number);
    let odd = dice.pick(&["table.rec", "trace.rec", "neither", "neither", "neither"]);
    let how = dice.below(4);
    for (name, mut bytes) in [("table.rec", case.table), ("trace.rec", case.trace)] {
        let path = folder.join(name);
        match how {
            _ if name != odd => fs::write(path, bytes)?,
            0 => {}
            1 => fs::create_dir(path)?,
            over => {
                bytes.resize(LONGEST + over - 2, 0);
                fs::write(path, bytes)?;
            }
        }
    }
    Ok(())
}
