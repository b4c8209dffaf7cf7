//! What is written: a result, whole or not at all.

use crate::Failure;
use std::fs::{self, File};
use std::io::{self, Write};
use std::path::{Path, PathBuf};

/// The result on standard output, which `-` stands for too, or in a file.
pub fn written(result: &[u8], out: Option<&Path>) -> Result<(), Failure> {
    match out {
        Some(file) if file.as_os_str() != "-" => {
            whole(file, result).map_err(|error| Failure::NotDone(format!("{}: cannot be written: {error}", file.display())))
        }
        _ => standard(result),
    }
}

pub fn standard(result: &[u8]) -> Result<(), Failure> {
    let mut out = io::stdout().lock();
    out.write_all(result)
        .and_then(|()| out.flush())
        .map_err(|error| Failure::NotDone(format!("standard output: cannot be written: {error}")))
}

/// Writes beside the file and then puts the new one in its place, with the rights of the old one, so that there is never half of it. A link is
/// followed, also where its target is not there yet. What is there and is no plain file, as a pipe or a device, is written to directly.
fn whole(file: &Path, result: &[u8]) -> io::Result<()> {
    let (file, rights) = match fs::metadata(file) {
        Ok(there) if !there.is_file() => return File::options().write(true).open(file)?.write_all(result),
        Ok(there) => (fs::canonicalize(file)?, Some(there.permissions())),
        Err(error) if error.kind() == io::ErrorKind::NotFound => (target(file), None),
        Err(error) => return Err(error),
    };
    let (part, mut new) = beside(&file, |part| File::create_new(part))?;
    let rights = rights.map_or(Ok(()), |rights| new.set_permissions(rights));
    let done = rights.and_then(|()| new.write_all(result)).and_then(|()| new.sync_all()).and_then(|()| fs::rename(&part, &file));
    if done.is_err() {
        _ = fs::remove_file(&part);
    }
    done
}

/// Where a path that leads to nothing ends: at itself, or where it is a link at what that names.
fn target(file: &Path) -> PathBuf {
    const LINKS: usize = 40; // as many as the system follows
    let mut file = file.to_path_buf();
    for _ in 0..LINKS {
        let Ok(next) = fs::read_link(&file) else { break };
        file.pop();
        file.push(next);
    }
    file
}

/// Makes something new in the folder of a file, under a name that nothing has there: the file's, of a long one the start, with the number of
/// this process and a count.
pub fn beside<T>(file: &Path, make: impl Fn(&Path) -> io::Result<T>) -> io::Result<(PathBuf, T)> {
    const START: usize = 100; // so that what is behind it has room in any name
    const MOST: usize = 100;
    let Some(name) = file.file_name() else {
        return Err(io::Error::new(io::ErrorKind::InvalidInput, "it is no name of a file"));
    };
    let mut start = name.to_string_lossy().into_owned();
    while start.len() > START {
        start.pop();
    }
    let mut count = 0;
    loop {
        let part = file.with_file_name(format!("{start}.{}.{count}.part", std::process::id()));
        match make(&part) {
            Err(error) if error.kind() == io::ErrorKind::AlreadyExists && count < MOST => count += 1,
            made => return made.map(|made| (part, made)),
        }
    }
}
