//! Files: read whole, and written so that a crash leaves the old bytes or the new ones.
//!
//! A call may change image and journal, and two files cannot be replaced in one step. They are replaced in three:
//!
//! 1. The new journal is written beside the old one, under a name that holds a digest of the image before the call and
//!    one of the image after it.
//! 2. The image is replaced. From here on the call counts.
//! 3. The file of step 1 takes the place of the journal.
//!
//! The next command that reads both tells by the image where a crash came. The image after the call: step 3 is made up
//! for. The image before it: the file of step 1 goes, as the call did not happen. Any other image: the command stops, as
//! the files do not belong together.
//!
//! With no such name a crash between two renames would not show: with the image first an operation, with the journal first
//! an undo or a rollback, would leave an image with changes that the journal knows nothing of.
use crate::calls::Vault;
use crate::failure::Failure;
use std::fs::{self, File, OpenOptions};
use std::io::{self, Read, Write};
use std::path::{Path, PathBuf};
use token_vault::{Image, Journal};

/// Far above the length of any image or journal.
const MOST_STATE: u64 = 1 << 20;
/// For files of calls and answers.
pub const MOST_TEXT: u64 = 1 << 30;

pub fn read(path: &str, most: u64) -> Result<Vec<u8>, Failure> {
    let mut bytes = Vec::new();
    let read = File::open(path).and_then(|file| file.take(most + 1).read_to_end(&mut bytes));
    read.map_err(|error| unreadable(path, &error))?;
    if bytes.len() as u64 > most {
        return Err(Failure::Usage(format!("{path}: the file has more than {most} bytes")));
    }
    Ok(bytes)
}

fn unreadable(path: &str, error: &io::Error) -> Failure {
    match error.kind() {
        io::ErrorKind::NotFound => Failure::File(format!("cannot read {path}: there is no such file")),
        _ => Failure::File(format!("cannot read {path}: {error}")),
    }
}

fn unwritable(path: &Path) -> impl Fn(io::Error) -> Failure + '_ {
    move |error| match error.kind() {
        io::ErrorKind::NotFound => Failure::File(format!("cannot write {}: there is no such folder", path.display())),
        _ => Failure::File(format!("cannot write {}: {error}", path.display())),
    }
}

/// Writes a whole file: a temporary file in the same folder, on the disk before it takes the file's place.
pub fn write(path: &str, bytes: &[u8]) -> Result<(), Failure> {
    let path = &real(path);
    let temporary = beside(path, "new");
    put(&temporary, path, bytes).and_then(|()| replace(&temporary, path)).map_err(|error| {
        let _ = fs::remove_file(&temporary);
        unwritable(path)(error)
    })
}

/// The file that a link stands for, where it is there.
fn real(path: &str) -> PathBuf {
    fs::canonicalize(path).unwrap_or_else(|_| PathBuf::from(path))
}

fn folder(path: &Path) -> &Path {
    path.parent().filter(|parent| !parent.as_os_str().is_empty()).unwrap_or(Path::new("."))
}

/// A name that no other tool gives: `.NAME.WORD.vault`.
fn beside(path: &Path, word: &str) -> PathBuf {
    let name = path.file_name().unwrap_or_default().to_string_lossy();
    folder(path).join(format!(".{name}.{word}.vault"))
}

/// Writes a new file, with the permissions of the file that it is to replace.
fn put(new: &Path, old: &Path, bytes: &[u8]) -> io::Result<()> {
    if new.exists() {
        fs::remove_file(new)?;
    }
    let mut file = OpenOptions::new().write(true).create_new(true).open(new)?;
    if let Ok(metadata) = fs::metadata(old) {
        file.set_permissions(metadata.permissions())?;
    }
    file.write_all(bytes)?;
    file.sync_all()?;
    sync_folder(new)
}

fn replace(new: &Path, old: &Path) -> io::Result<()> {
    fs::rename(new, old)?;
    sync_folder(old)
}

fn sync_folder(path: &Path) -> io::Result<()> {
    File::open(folder(path))?.sync_all()
}

/// The files of an image and, where one is named, of its journal, as they were read.
pub struct Files {
    /// Held until the command ends, so that two commands on one image come one after the other.
    _folder: File,
    image: String,
    journal: Option<String>,
    image_bytes: Vec<u8>,
    journal_bytes: Option<Vec<u8>>,
}

/// What is done where the named journal is not there.
#[derive(Clone, Copy)]
pub enum Missing {
    Fails,
    /// A closed one with room for so many entries; it becomes a file when it is written.
    IsMade(usize),
}

impl Files {
    /// Reads image and journal, once a call that was cut short is finished or dropped.
    pub fn open(image: &str, journal: Option<&str>, missing: Missing) -> Result<(Files, Vault), Failure> {
        let held = hold(image)?;
        let image_bytes = read(image, MOST_STATE)?;
        let journal_bytes = match journal {
            Some(path) => {
                settle(&image_bytes, path)?;
                read_journal(path, missing)?
            }
            None => None,
        };
        let made = match (journal, missing) {
            (Some(_), Missing::IsMade(entries)) => Journal::new(entries),
            _ => None,
        };
        let vault =
            Vault { image: Image::from_bytes(image_bytes.clone()), journal: journal_bytes.clone().map(Journal::from_bytes).or(made) };
        Ok((Files { _folder: held, image: image.to_string(), journal: journal.map(str::to_string), image_bytes, journal_bytes }, vault))
    }

    /// Writes what has changed.
    pub fn store(&self, vault: &Vault) -> Result<(), Failure> {
        let image = Some(vault.image.as_bytes()).filter(|bytes| *bytes != self.image_bytes);
        let journal = vault.journal.as_ref().map(Journal::as_bytes).filter(|bytes| Some(*bytes) != self.journal_bytes.as_deref());
        match (image, self.journal.as_ref().zip(journal)) {
            (None, None) => Ok(()),
            (Some(image), None) => write(&self.image, image),
            (None, Some((path, journal))) => write(path, journal),
            (Some(image), Some((path, journal))) => self.store_both(image, path, journal),
        }
    }

    /// The three steps.
    fn store_both(&self, image: &[u8], journal: &str, bytes: &[u8]) -> Result<(), Failure> {
        let journal = &real(journal);
        let waiting = beside(journal, &format!("{}-{}", digest(&self.image_bytes), digest(image)));
        put(&waiting, journal, bytes).map_err(unwritable(journal))?;
        write(&self.image, image).inspect_err(|_| {
            let _ = fs::remove_file(&waiting);
        })?;
        replace(&waiting, journal).map_err(unwritable(journal))
    }
}

/// Locks the image's folder: the image itself is another file after each call. Where there are no locks it is only opened.
fn hold(image: &str) -> Result<File, Failure> {
    let image = &real(image);
    let held = File::open(folder(image)).and_then(|file| match file.lock() {
        Err(error) if error.kind() != io::ErrorKind::Unsupported => Err(error),
        _ => Ok(file),
    });
    held.map_err(|error| unreadable(&image.display().to_string(), &error))
}

fn read_journal(path: &str, missing: Missing) -> Result<Option<Vec<u8>>, Failure> {
    match missing {
        Missing::IsMade(_) if !Path::new(path).exists() => Ok(None),
        _ => read(path, MOST_STATE).map(Some),
    }
}

/// Enough of SHA-256 to tell images apart in a file name.
fn digest(bytes: &[u8]) -> String {
    sha256::hex(bytes)[..16].to_string()
}

/// Finishes or drops a call that was cut short between its steps.
fn settle(image: &[u8], journal: &str) -> Result<(), Failure> {
    let journal = &real(journal);
    for waiting in waiting_beside(journal)? {
        let now = digest(image);
        if now == waiting.after {
            replace(&waiting.path, journal).map_err(unwritable(journal))?;
            note("the last call was cut short after it was done; its journal is in place now");
        } else if now == waiting.before {
            fs::remove_file(&waiting.path).map_err(unwritable(&waiting.path))?;
            note("the last call was cut short before it was done; it did not happen");
        } else {
            let name = waiting.path.file_name().unwrap_or_default().to_string_lossy();
            return Err(Failure::File(format!(
                "a call was cut short and left {name}, but the image is neither the one before that call nor the one after it: \
                 put that image back, or remove the file"
            )));
        }
    }
    Ok(())
}

fn note(text: &str) {
    let _ = writeln!(io::stderr(), "vault: note: {text}");
}

/// A journal that step 1 wrote, and the digests in its name.
struct Waiting {
    path: PathBuf,
    before: String,
    after: String,
}

fn waiting_beside(journal: &Path) -> Result<Vec<Waiting>, Failure> {
    let prefix = format!(".{}.", journal.file_name().unwrap_or_default().to_string_lossy());
    let entries = fs::read_dir(folder(journal)).map_err(|error| unreadable(&folder(journal).display().to_string(), &error))?;
    let mut all: Vec<Waiting> = entries
        .filter_map(|entry| {
            let entry = entry.ok()?;
            let name = entry.file_name().into_string().ok()?;
            let (before, after) = name.strip_prefix(&prefix)?.strip_suffix(".vault")?.split_once('-')?;
            let are_digests = [before, after].iter().all(|word| word.len() == 16 && word.bytes().all(|b| b.is_ascii_hexdigit()));
            are_digests.then_some(())?;
            Some(Waiting { path: entry.path(), before: before.to_string(), after: after.to_string() })
        })
        .collect();
    all.sort_by(|a, b| a.path.cmp(&b.path));
    Ok(all)
}
