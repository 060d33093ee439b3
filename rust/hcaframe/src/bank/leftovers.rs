//! What a run that was ended from outside left behind: temporary files of the outputs that this call has.
use crate::output::{temporary_of, temporary_stem};
use crate::stop::{shown, Stop};
use std::collections::{BTreeMap, BTreeSet};
use std::ffi::OsString;
use std::path::PathBuf;
use std::{fs, io};

/// Removes them; says how many there were.
pub fn remove(outputs: impl Iterator<Item = PathBuf>) -> Result<usize, Stop> {
    let mut folders: BTreeMap<PathBuf, BTreeSet<OsString>> = BTreeMap::new();
    for path in outputs {
        if let (Some(folder), Some(name)) = (path.parent(), path.file_name()) {
            folders.entry(folder.to_path_buf()).or_default().insert(temporary_stem(name));
        }
    }
    let mut count = 0;
    for (folder, stems) in &folders {
        count += remove_in(folder, stems).map_err(|error| Stop::failed(shown(folder), &error))?;
    }
    Ok(count)
}

fn remove_in(folder: &PathBuf, stems: &BTreeSet<OsString>) -> io::Result<usize> {
    let entries = match fs::read_dir(folder) {
        Err(error) if error.kind() == io::ErrorKind::NotFound => return Ok(0),
        entries => entries?,
    };
    let mut count = 0;
    for entry in entries {
        let entry = entry?;
        let is_left = temporary_of(&entry.file_name()).is_some_and(|stem| stems.contains(&stem));
        if is_left && entry.file_type()?.is_file() {
            fs::remove_file(entry.path())?;
            count += 1;
        }
    }
    Ok(count)
}
