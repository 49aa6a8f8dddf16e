//! Writes the merged records to a file, as a whole or not at all.
use recon::{Table, ID_BYTES};
use std::ffi::OsString;
use std::fs::{self, File, OpenOptions};
use std::io::{self, BufWriter, ErrorKind, Write};
use std::path::{Path, PathBuf};
use std::process;

/// Makes a file one of these records, in table order. They are written under another name in the same folder, which
/// then takes the place of the file: whatever fails or ends the program before that leaves the file as it was.
pub fn write(path: &Path, table: Table<'_>) -> io::Result<()> {
    let (target, before) = target(path)?;
    let part = part_name(&target)?;
    let written = write_part(&part, before, table).and_then(|()| fs::rename(&part, &target));
    if written.is_err() {
        // The first failure is told, not one of this.
        let _ = fs::remove_file(&part);
    }
    written
}

/// The file that a path leads to over links, and its permissions if it is there. Only a regular file is replaced: a
/// device would become one.
fn target(path: &Path) -> io::Result<(PathBuf, Option<fs::Permissions>)> {
    match fs::metadata(path) {
        Err(error) if error.kind() == ErrorKind::NotFound => Ok((path.to_path_buf(), None)),
        Err(error) => Err(error),
        Ok(known) if known.is_file() => Ok((fs::canonicalize(path)?, Some(known.permissions()))),
        Ok(_) => Err(io::Error::new(ErrorKind::Other, "not a regular file")),
    }
}

/// A name of this process in the same folder.
fn part_name(target: &Path) -> io::Result<PathBuf> {
    let name = target.file_name().ok_or(ErrorKind::NotFound)?;
    let mut part = OsString::from(name);
    part.push(format!(".{}.part", process::id()));
    Ok(target.with_file_name(part))
}

fn write_part(part: &Path, permissions: Option<fs::Permissions>, table: Table<'_>) -> io::Result<()> {
    let file = OpenOptions::new().write(true).create_new(true).open(part)?;
    if let Some(permissions) = permissions {
        file.set_permissions(permissions)?;
    }
    let mut out = BufWriter::new(file);
    write_records(&mut out, table)?;
    let file: File = out.into_inner().map_err(|error| error.into_error())?;
    // Otherwise a loss of power could leave the name with nothing behind it.
    file.sync_all()
}

fn write_records(out: &mut impl Write, table: Table<'_>) -> io::Result<()> {
    for (time, id) in table.times.iter().zip(table.ids.chunks_exact(ID_BYTES)) {
        writeln!(out, "{time} {}", crate::report::hex(id))?;
    }
    Ok(())
}

#[cfg(test)]
mod tests {
    use super::*;

    #[test]
    fn a_record_to_a_line() {
        let mut out = Vec::new();
        let ids = [[0x0a; 32], [0xff; 32]].concat();
        let times = &[0, u64::MAX - 1];
        write_records(&mut out, Table { times, ids: &ids }).unwrap();
        let text = format!("0 {}\n18446744073709551614 {}\n", "0a".repeat(32), "ff".repeat(32));
        assert_eq!(String::from_utf8(out).unwrap(), text);
    }

    #[test]
    fn a_part_stands_beside_its_file() {
        let part = part_name(Path::new("a/b.txt")).unwrap();
        assert_eq!(part.parent(), Some(Path::new("a")));
        assert!(part.to_string_lossy().starts_with("a/b.txt."));
        assert_eq!(part_name(Path::new("b")).unwrap().parent(), Some(Path::new("")));
        assert!(part_name(Path::new("..")).is_err());
    }
}
