//! The takes of a bank: the WAV files below a folder, by name.
use crate::stop::{shown, Stop};
use std::collections::BTreeMap;
use std::ffi::OsStr;
use std::fs;
use std::io;
use std::os::unix::ffi::OsStrExt;
use std::path::{Path, PathBuf};

/// A WAV file below the bank's folder.
#[derive(Debug, PartialEq, Eq)]
pub struct Take {
    /// As seen from that folder.
    pub name: PathBuf,
    /// As the folder says; what is left to do is reckoned by it.
    pub bytes: u64,
}

impl Take {
    /// Its HCA file and its list, as seen from the output folder.
    pub fn outputs(&self) -> [PathBuf; 2] {
        ["hca", "list"].map(|end| self.name.with_extension(end))
    }
}

fn is_take(name: &Path) -> bool {
    name.extension().is_some_and(|end| end.eq_ignore_ascii_case("wav"))
}

/// All takes below the folder, in the order of their names' bytes.
pub fn find(folder: &OsStr) -> Result<Vec<Take>, Stop> {
    let mut takes = Vec::new();
    let mut folders = vec![PathBuf::new()];
    while let Some(part) = folders.pop() {
        // an empty part would put a slash behind the folder
        let at = if part.as_os_str().is_empty() { PathBuf::from(folder) } else { Path::new(folder).join(&part) };
        look(&at, &part, &mut takes, &mut folders).map_err(|error| Stop::failed(shown(&at), &error))?;
    }
    if takes.is_empty() {
        return Err(Stop::wrong(format_args!("--in: {} has no file whose name ends with .wav", shown(folder))));
    }
    takes.sort_by(|a, b| a.name.as_os_str().as_bytes().cmp(b.name.as_os_str().as_bytes()));
    Ok(takes)
}

/// One folder: its takes, and the folders in it. A link to a folder is not followed; one to a file is that file.
fn look(at: &Path, part: &Path, takes: &mut Vec<Take>, folders: &mut Vec<PathBuf>) -> io::Result<()> {
    for entry in fs::read_dir(at)? {
        let entry = entry?;
        let name = part.join(entry.file_name());
        if entry.file_type()?.is_dir() {
            folders.push(name);
        } else if is_take(&name) {
            let about = fs::metadata(entry.path());
            if !about.as_ref().is_ok_and(|about| about.is_dir()) {
                // one that cannot be read is told when its turn comes
                takes.push(Take { name, bytes: about.map_or(0, |about| about.len()) });
            }
        }
    }
    Ok(())
}

/// Two takes that would become one file end the call.
pub fn have_own_outputs(takes: &[Take]) -> Result<(), Stop> {
    let mut seen = BTreeMap::new();
    for take in takes {
        let [hca, _] = take.outputs();
        if let Some(other) = seen.insert(hca.clone(), take) {
            let (a, b) = (shown(&other.name), shown(&take.name));
            return Err(Stop::wrong(format_args!("{a} and {b} have one output name, {}", shown(hca))));
        }
    }
    Ok(())
}

/// The part of the takes that this call has: the K-th of every N.
pub fn part(takes: Vec<Take>, (part, of): (u64, u64)) -> Vec<Take> {
    takes.into_iter().zip(0_u64..).filter(|(_, index)| index % of == part - 1).map(|(take, _)| take).collect()
}

#[cfg(test)]
mod tests {
    use super::*;

    fn takes(names: &[&str]) -> Vec<Take> {
        names.iter().map(|name| Take { name: PathBuf::from(name), bytes: 1 }).collect()
    }

    fn names(takes: Vec<Take>) -> Vec<String> {
        takes.iter().map(|take| shown(&take.name)).collect()
    }

    #[test]
    fn names_of_takes() {
        for (name, is) in
            [("a.wav", true), ("a.WaV", true), ("a.b.wav", true), (".wav", false), ("wav", false), ("a.wave", false)]
        {
            assert_eq!(is_take(Path::new(name)), is, "{name}");
        }
        let [take] = &takes(&["x/a.b.WAV"])[..] else { unreachable!() };
        assert_eq!(take.outputs(), [PathBuf::from("x/a.b.hca"), PathBuf::from("x/a.b.list")]);
    }

    #[test]
    fn one_output_name() {
        assert!(have_own_outputs(&takes(&["a.wav", "b.wav", "x/a.wav", "a.wav.wav"])).is_ok());
        let text = have_own_outputs(&takes(&["a.WAV", "a.wav"])).unwrap_err().text;
        assert_eq!(text, "hcaframe: a.WAV and a.wav have one output name, a.hca\n");
    }

    #[test]
    fn parts_are_all() {
        let all = ["a.wav", "b.wav", "c.wav", "d.wav", "e.wav"];
        assert_eq!(names(part(takes(&all), (1, 2))), ["a.wav", "c.wav", "e.wav"]);
        assert_eq!(names(part(takes(&all), (2, 2))), ["b.wav", "d.wav"]);
        assert_eq!(names(part(takes(&all), (1, 1))), all);
        assert_eq!(part(takes(&all), (7, 9)), []);
    }
}
