//! The last ceiling that a server saw of its journal, in a file apart from it.

use std::error::Error;
use std::fmt;
use std::fs::{self, File};
use std::io::{self, Write};
use std::path::{self, Path, PathBuf};

use crate::configuration::Configuration;
use crate::file::sync_folder;
use crate::types::Generation;

/// The file of the last [ceiling](crate::Consumer::ceiling) that was seen of a journal. It belongs on another disk than the journal: a
/// restart [by it](crate::Consumer::restart_at_least) refuses a journal that is older, as a backup is and one that was created anew. Each
/// journal has a file of its own.
///
/// It is one line of text, `4097 limit 5 threshold 1`: the ceiling, and beside it the delivery limit and the flush threshold of the
/// [configuration](Configuration), for which the bounds hold. Another configuration is found by it
/// ([`CeilingError::OtherConfiguration`]). A file from before, with a number alone, is read too, and has all of it from the next
/// checkpoint on.
///
/// A [shared consumer](crate::SharedConsumer) reads and keeps it. By itself it is for a server's own command that creates a journal:
///
/// ```
/// use ironbus_delivery_state::{CeilingFile, Configuration, NewJournal};
/// # let folder = std::env::temp_dir().join(format!("ironbus-doc-ceiling-{}", std::process::id()));
/// # let _ = std::fs::remove_dir_all(&folder);
/// # std::fs::create_dir(&folder)?;
/// # let (journal, seen) = (folder.join("recipes.journal"), folder.join("recipes.seen"));
///
/// CeilingFile::new(&seen).begin(&Configuration::default())?;     // refused where something was seen
/// let journal = NewJournal::create(&journal, 18)?;
/// # std::fs::remove_dir_all(&folder)?;
/// # Ok::<(), Box<dyn std::error::Error>>(())
/// ```
#[derive(Clone, Debug, PartialEq, Eq, Hash)]
pub struct CeilingFile {
    path: PathBuf,
}

/// What the file has. One from before has no configuration.
#[derive(Clone, Copy, Debug, PartialEq, Eq)]
struct Seen {
    ceiling: Generation,
    bounds: Option<Bounds>,
}

/// The numbers of a configuration that the bounds on deliveries are for.
#[derive(Clone, Copy, Debug, PartialEq, Eq, Hash)]
pub struct Bounds {
    /// The delivery limit, M.
    pub limit: u32,
    /// The flush threshold, N.
    pub threshold: u32,
}

impl Bounds {
    /// Those of a configuration.
    #[must_use]
    pub fn of(configuration: &Configuration) -> Bounds {
        let delivery = &configuration.settings.delivery;
        Bounds {
            limit: delivery.max_deliver(),
            threshold: delivery.attempts_flush_redeliveries(),
        }
    }
}

impl fmt::Display for Bounds {
    fn fmt(&self, f: &mut fmt::Formatter<'_>) -> fmt::Result {
        write!(f, "limit {} threshold {}", self.limit, self.threshold)
    }
}

impl CeilingFile {
    /// The file of a name, whether it is there or not. A relative one counts from the folder in which the server is now.
    #[must_use]
    pub fn new(path: impl Into<PathBuf>) -> CeilingFile {
        let path = path.into();
        let path = path::absolute(&path).unwrap_or(path);
        CeilingFile { path }
    }

    /// Its name.
    #[must_use]
    pub fn path(&self) -> &Path {
        &self.path
    }

    /// Begins it, for a journal that is created next: nothing has been seen.
    ///
    /// # Errors
    /// [`CeilingError::Seen`] where something was seen of a journal before, and those of [`read`](CeilingFile::read) and
    /// [`keep`](CeilingFile::keep) but `Missing` and `OtherConfiguration`.
    pub fn begin(&self, configuration: &Configuration) -> Result<(), CeilingError> {
        let nothing = Generation::default();
        match self.seen() {
            Ok(Seen { ceiling, .. }) if ceiling > nothing => Err(CeilingError::Seen(ceiling)),
            Ok(_) | Err(CeilingError::Missing) => self.keep(nothing, configuration),
            Err(error) => Err(error),
        }
    }

    /// The last ceiling that was kept, under the same limit and threshold.
    ///
    /// # Errors
    /// [`CeilingError::Missing`], [`CeilingError::NoCeiling`], [`CeilingError::OtherConfiguration`] and [`CeilingError::Io`].
    pub fn read(&self, configuration: &Configuration) -> Result<Generation, CeilingError> {
        let Seen { ceiling, bounds } = self.seen()?;
        let given = Bounds::of(configuration);
        match bounds {
            Some(kept) if kept != given => Err(CeilingError::OtherConfiguration { kept, given }),
            _ => Ok(ceiling),
        }
    }

    /// Keeps a ceiling. Whenever the power fails, the file has the old one or the new one; once this has answered, it has the new one.
    ///
    /// # Errors
    /// [`CeilingError::NoFileName`], [`CeilingError::Folder`] and [`CeilingError::Io`].
    pub fn keep(
        &self,
        ceiling: Generation,
        configuration: &Configuration,
    ) -> Result<(), CeilingError> {
        if self.path.file_name().is_none() {
            return Err(CeilingError::NoFileName);
        }
        let mut new = self.path.clone().into_os_string();
        new.push(".tmp");
        let text = format!("{ceiling} {}\n", Bounds::of(configuration));
        let kept =
            write_durably(Path::new(&new), &text).and_then(|()| fs::rename(&new, &self.path));
        if kept.is_err() {
            let _ = fs::remove_file(&new);
        }
        kept?;
        sync_folder(&self.path).map_err(CeilingError::Folder)
    }

    fn seen(&self) -> Result<Seen, CeilingError> {
        match fs::read_to_string(&self.path) {
            Ok(text) => seen_of(&text).ok_or(CeilingError::NoCeiling),
            Err(error) => Err(match error.kind() {
                io::ErrorKind::NotFound => CeilingError::Missing,
                io::ErrorKind::InvalidData => CeilingError::NoCeiling,
                _ => CeilingError::Io(error),
            }),
        }
    }
}

// What is synced is what was written, by the handle that wrote it: an error in between would go to nobody else.
fn write_durably(path: &Path, text: &str) -> io::Result<()> {
    let mut file = File::create(path)?;
    file.write_all(text.as_bytes())?;
    file.sync_all()
}

fn seen_of(text: &str) -> Option<Seen> {
    let words: Vec<&str> = text.split_whitespace().collect();
    let (ceiling, bounds) = match words[..] {
        [ceiling] => (ceiling, None),
        [ceiling, "limit", limit, "threshold", threshold] => {
            let limit = limit.parse().ok()?;
            let threshold = threshold.parse().ok()?;
            (ceiling, Some(Bounds { limit, threshold }))
        }
        _ => return None,
    };
    let ceiling = Generation::new(ceiling.parse().ok()?);
    Some(Seen { ceiling, bounds })
}

/// Why the last ceiling can't be had, or be kept.
#[derive(Debug)]
#[non_exhaustive]
pub enum CeilingError {
    /// There is no file of that name. That doesn't count as nothing seen: its disk may not be mounted.
    Missing,
    /// The file is there, and has something else in it.
    NoCeiling,
    /// The path doesn't end in the name of a file.
    NoFileName,
    /// A new journal is to be created, and this ceiling was seen of one that was there before.
    Seen(Generation),
    /// The journal was run with another limit or threshold: the bounds are for one of each.
    OtherConfiguration {
        /// What the file has.
        kept: Bounds,
        /// What the server has now.
        given: Bounds,
    },
    /// The file's folder can't be synced, so that a new ceiling might not outlive a power failure.
    Folder(io::Error),
    /// What the disk says, or the system.
    Io(io::Error),
}

impl fmt::Display for CeilingError {
    fn fmt(&self, f: &mut fmt::Formatter<'_>) -> fmt::Result {
        match self {
            CeilingError::Missing => f.write_str("there is no file of the last ceiling"),
            CeilingError::NoCeiling => f.write_str("the file of the last ceiling has none in it"),
            CeilingError::NoFileName => {
                f.write_str("the path of the last ceiling doesn't end in the name of a file")
            }
            CeilingError::Seen(ceiling) => write!(
                f,
                "ceiling {ceiling} was seen of a journal that was there before. Stop all workers, and remove the file of the last \
                 ceiling, before there is a new one"
            ),
            CeilingError::OtherConfiguration { kept, given } => write!(
                f,
                "the journal was run with {kept}, and not with {given}: the bounds are for one of each"
            ),
            CeilingError::Folder(_) => f.write_str("the folder of the last ceiling can't be synced"),
            CeilingError::Io(_) => f.write_str("the last ceiling can't be read or written"),
        }
    }
}

impl Error for CeilingError {
    fn source(&self) -> Option<&(dyn Error + 'static)> {
        match self {
            CeilingError::Folder(error) | CeilingError::Io(error) => Some(error),
            _ => None,
        }
    }
}

impl From<io::Error> for CeilingError {
    fn from(error: io::Error) -> CeilingError {
        CeilingError::Io(error)
    }
}

#[cfg(test)]
mod tests {
    use super::*;

    #[test]
    fn what_a_file_may_have() {
        let seen = |ceiling, bounds: Option<(u32, u32)>| {
            let bounds = bounds.map(|(limit, threshold)| Bounds { limit, threshold });
            let ceiling = Generation::new(ceiling);
            Some(Seen { ceiling, bounds })
        };
        assert_eq!(seen_of("4097"), seen(4097, None));
        assert_eq!(seen_of(" 4097\n"), seen(4097, None));
        let whole = "18446744073709551615 limit 5 threshold 4294967295\n";
        assert_eq!(seen_of(whole), seen(u64::MAX, Some((5, u32::MAX))));
        for text in [
            "",
            "\n",
            "-1",
            "18446744073709551616",
            "4097 limit",
            "4097 limit 5",
            "4097 limit 5 threshold",
            "4097 threshold 1 limit 5",
            "4097 limit 5 threshold 1 2",
            "4097 limit x threshold 1",
            "limit 5 threshold 1",
        ] {
            assert_eq!(seen_of(text), None, "{text}");
        }
    }
}
