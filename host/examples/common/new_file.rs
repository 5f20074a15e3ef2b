// A file that is put in place when it is whole: until then it has another name, and what is there is as it was. It rests on the tally for
// one thing: whether what is there begins as recordings do.
use super::command::{failed, of_system, shown, Outcome};
use klovdrun::{tally, Refusal};
use std::ffi::{OsStr, OsString};
use std::fs::{self, File, Metadata, OpenOptions};
use std::io::{self, BufWriter, ErrorKind, Read, Seek, SeekFrom, Write};
use std::os::unix::ffi::OsStrExt;
use std::os::unix::fs::MetadataExt;
use std::path::{Path, PathBuf};

/// How many temporary names are tried.
const TRIES: usize = 100;

/// What is read, and so is never written over; and what is said where that is asked.
pub struct Source<'a> {
    pub name: &'a str,
    pub file: &'a File,
    pub itself: &'static str,
}

/// A temporary file's name; the file is removed with it. After a renaming there is none.
struct Temporary(PathBuf);

impl Drop for Temporary {
    fn drop(&mut self) {
        let _ = fs::remove_file(&self.0);
    }
}

/// A file's folder with its slash.
fn folder_of(path: &Path) -> OsString {
    let bytes = path.as_os_str().as_bytes();
    let folder = bytes.iter().rposition(|&byte| byte == b'/').map_or(&b"./"[..], |slash| &bytes[..=slash]);
    OsStr::from_bytes(folder).to_os_string()
}

/// Makes a file of a name that is not there yet, in the folder of another.
fn make_temporary(program: &str, beside: &Path) -> io::Result<(Temporary, File)> {
    let mut tries = 0;
    loop {
        let mut name = folder_of(beside);
        name.push(format!(".{program}-{}", std::process::id()));
        if tries > 0 {
            name.push(format!("-{tries}"));
        }
        tries += 1;
        match OpenOptions::new().write(true).create_new(true).open(&name) {
            Err(error) if error.kind() == ErrorKind::AlreadyExists && tries < TRIES => {}
            made => return made.map(|file| (Temporary(name.into()), file)),
        }
    }
}

/// Whether a file begins as recordings do: of a pipe it cannot be told whether it brings this one. Fails if it cannot be read.
fn is_recording(path: &Path) -> Outcome<bool> {
    let mut first = Vec::new();
    let read = File::open(path).and_then(|file| file.take(4).read_to_end(&mut first));
    of_system(&shown(path), read)?;
    Ok(!matches!(tally(&first), Err(Refusal { number: Refusal::MAGIC, .. })))
}

/// What tells one file from another.
fn known(file: &Metadata) -> (u64, u64) {
    (file.dev(), file.ino())
}

/// Fails if a file must not be written: asked before anything is read, and again before it is put in place.
fn look_at(path: &Path, force: bool, sources: &[Source]) -> Outcome<()> {
    let name = shown(path);
    match fs::symlink_metadata(path) {
        Err(error) if error.kind() == ErrorKind::NotFound => return Ok(()),
        there => of_system(&name, there)?,
    };
    // none for a link to nothing
    let led_to = fs::metadata(path).ok();
    for source in sources {
        let read = known(&of_system(source.name, source.file.metadata())?);
        if led_to.as_ref().map(known) == Some(read) {
            return failed(&name, source.itself);
        }
    }
    if led_to.as_ref().map_or(false, |led_to| !led_to.is_file()) {
        failed(&name, "it is not a file")
    } else if led_to.is_some() && is_recording(path)? {
        failed(&name, "it is a recording")
    } else if !force {
        failed(&name, "it is there already; --force replaces it")
    } else {
        Ok(())
    }
}

/// Removes the empty file that has taken a name, if it is still the one there and still empty.
fn give_up(path: &Path, taken: &Metadata) {
    let there = fs::symlink_metadata(path);
    if there.map_or(false, |there| known(&there) == known(taken) && there.len() == 0) {
        let _ = fs::remove_file(path);
    }
}

/// The file, which has another name until it is whole.
pub struct NewFile<'a> {
    path: &'a Path,
    force: bool,
    temporary: Temporary,
    file: BufWriter<File>,
}

impl<'a> NewFile<'a> {
    /// With `force` it replaces a file that is there already. The program's name is in the temporary one.
    pub fn create(program: &str, path: &'a Path, force: bool, sources: &[Source]) -> Outcome<NewFile<'a>> {
        look_at(path, force, sources)?;
        let (temporary, file) = of_system(&shown(path), make_temporary(program, path))?;
        Ok(NewFile { path, force, temporary, file: BufWriter::new(file) })
    }

    pub fn put(&mut self, bytes: &[u8]) -> Outcome<()> {
        of_system(&shown(self.path), self.file.write_all(bytes))
    }

    /// Throws away what was put.
    pub fn start_anew(&mut self) -> Outcome<()> {
        let emptied = self.file.seek(SeekFrom::Start(0)).and_then(|_| self.file.get_ref().set_len(0));
        of_system(&shown(self.path), emptied)
    }

    /// A file that was made meanwhile is not overwritten: a link is refused then, as a renaming is not. Where the file system has no links
    /// the name is taken first, by an empty file, which is closed before the renaming: some file systems rename over no open one.
    fn link(&self) -> io::Result<()> {
        let Temporary(temporary) = &self.temporary;
        match fs::hard_link(temporary, self.path) {
            Err(error) if error.kind() != ErrorKind::AlreadyExists => {
                let taken = OpenOptions::new().write(true).create_new(true).open(self.path)?.metadata();
                let renamed = fs::rename(temporary, self.path);
                if let (Err(_), Ok(taken)) = (&renamed, taken) {
                    give_up(self.path, &taken);
                }
                renamed
            }
            linked => linked,
        }
    }

    /// Puts the file in place, and its name on the disk too: a folder that cannot be opened for that is left to the system.
    pub fn put_in_place(mut self, sources: &[Source]) -> Outcome<()> {
        let name = shown(self.path);
        of_system(&name, self.file.flush().and_then(|()| self.file.get_ref().sync_all()))?;
        look_at(self.path, self.force, sources)?;
        let placed = if self.force { fs::rename(&self.temporary.0, self.path) } else { self.link() };
        of_system(&name, placed)?;
        let _ = File::open(folder_of(self.path)).and_then(|folder| folder.sync_all());
        Ok(())
    }
}
