//! What an operator does about an error, with an exit status for each.

use std::fmt;
use std::io;

use crate::ceiling::CeilingError;
use crate::errors::{Displaced, JournalError};
use crate::form::FormError;

/// What an operator does about an error of a journal, of the file of the last ceiling, or of a
/// [shared consumer](crate::SharedConsumer). Its text says it in a sentence.
///
/// ```
/// use ironbus_delivery_state::{Journal, Remedy};
///
/// let error = Journal::open("not/there.journal").unwrap_err();
/// assert_eq!(error.remedy(), Remedy::Look);
/// eprintln!("{error}. {}", error.remedy());
/// // std::process::exit(error.remedy().exit_status().into());
/// ```
#[derive(Clone, Copy, Debug, PartialEq, Eq, Hash)]
#[non_exhaustive]
pub enum Remedy {
    /// The program or its configuration is wrong.
    MendProgram,
    /// Another process has the journal.
    FindOther,
    /// The journal, or the file of the last ceiling, isn't there or isn't the right one.
    Look,
    /// The disk failed, and what it failed to write was written once more: nothing is lost, and the consumer is restarted.
    SeeToDisk,
    /// The disk failed, and what it failed to write may be lost.
    RestartMachine,
    /// There is no room on the disk. Nothing was handed out because of it.
    MakeRoom,
    /// The folder or its filesystem can't have a journal.
    OtherPlace,
}

impl Remedy {
    /// All of them, by exit status.
    pub const ALL: [Remedy; 7] = [
        Remedy::MendProgram,
        Remedy::FindOther,
        Remedy::Look,
        Remedy::SeeToDisk,
        Remedy::RestartMachine,
        Remedy::MakeRoom,
        Remedy::OtherPlace,
    ];

    /// The exit status by which a service manager knows it: 1 and 3 to 8. (2 is for wrong arguments, as elsewhere.) After 3 a server may be
    /// started again by itself, after the others somebody has to act first: docs/OPERATING.md, "How the example ends".
    #[must_use]
    pub const fn exit_status(self) -> u8 {
        match self {
            Remedy::MendProgram => 1,
            Remedy::FindOther => 3,
            Remedy::Look => 4,
            Remedy::SeeToDisk => 5,
            Remedy::RestartMachine => 6,
            Remedy::MakeRoom => 7,
            Remedy::OtherPlace => 8,
        }
    }

    // What the system says of a file. It isn't there, can't be opened, or is no text: the wrong file, or a disk that isn't mounted. All else
    // but a full disk is the disk's.
    pub(crate) fn of(error: &io::Error) -> Remedy {
        use io::ErrorKind as Kind;
        match error.kind() {
            Kind::NotFound
            | Kind::PermissionDenied
            | Kind::IsADirectory
            | Kind::NotADirectory
            | Kind::InvalidData => Remedy::Look,
            Kind::StorageFull | Kind::QuotaExceeded => Remedy::MakeRoom,
            _ => Remedy::RestartMachine,
        }
    }

    // A folder that can't be synced: the disk failed, or its filesystem doesn't do it, or it can't be opened for it.
    fn of_folder(error: &io::Error) -> Remedy {
        const EIO: i32 = 5;
        match Remedy::of(error) {
            Remedy::MakeRoom => Remedy::MakeRoom,
            _ if error.raw_os_error() == Some(EIO) => Remedy::RestartMachine,
            _ => Remedy::OtherPlace,
        }
    }

    // A checkpoint that was not begun.
    pub(crate) fn of_displaced(error: &io::Error) -> Remedy {
        let displaced = error.get_ref().is_some_and(|error| error.is::<Displaced>());
        if displaced {
            Remedy::Look
        } else {
            Remedy::of(error)
        }
    }
}

impl fmt::Display for Remedy {
    fn fmt(&self, f: &mut fmt::Formatter<'_>) -> fmt::Result {
        f.write_str(match self {
            Remedy::MendProgram => "mend the program or its configuration",
            Remedy::FindOther => "find the process that has the journal, and start no second server",
            Remedy::Look => {
                "look whether it is the right file and its disk is mounted, and create no new journal"
            }
            Remedy::SeeToDisk => {
                "what the disk failed to write is written now: repair or replace the disk, then go on"
            }
            Remedy::RestartMachine => {
                "repair or replace the disk, and restart the machine before the server"
            }
            Remedy::MakeRoom => "make room on the disk, then go on",
            Remedy::OtherPlace => "choose another folder or another filesystem for it",
        })
    }
}

impl JournalError {
    /// What to do about it.
    #[must_use]
    pub fn remedy(&self) -> Remedy {
        match self {
            JournalError::Locked => Remedy::FindOther,
            JournalError::BadBlocks(_)
            | JournalError::BadJournals(_)
            | JournalError::NoSuchJournal(_) => Remedy::MendProgram,
            JournalError::Lost => Remedy::RestartMachine,
            JournalError::NoFileName | JournalError::NoHardLinks(_) => Remedy::OtherPlace,
            JournalError::Folder(error) => Remedy::of_folder(error),
            JournalError::Form(FormError::Unreadable(_)) => Remedy::RestartMachine,
            JournalError::Exists
            | JournalError::Used
            | JournalError::Free
            | JournalError::Unfinished
            | JournalError::Form(_) => Remedy::Look,
            JournalError::Io(error) => Remedy::of(error),
        }
    }
}

impl CeilingError {
    /// What to do about it.
    #[must_use]
    pub fn remedy(&self) -> Remedy {
        match self {
            CeilingError::NoFileName => Remedy::OtherPlace,
            CeilingError::Folder(error) => Remedy::of_folder(error),
            CeilingError::Io(error) => Remedy::of(error),
            CeilingError::Missing
            | CeilingError::NoCeiling
            | CeilingError::Seen(_)
            | CeilingError::OtherConfiguration { .. } => Remedy::Look,
        }
    }
}

#[cfg(test)]
mod tests {
    use super::*;

    #[test]
    fn each_has_its_status_and_its_sentence() {
        let statuses = Remedy::ALL.map(Remedy::exit_status);
        assert_eq!(statuses, [1, 3, 4, 5, 6, 7, 8]);
        let mut says = Remedy::ALL.map(|remedy| remedy.to_string()).to_vec();
        says.sort();
        says.dedup();
        assert_eq!(says.len(), Remedy::ALL.len());
    }

    #[test]
    fn what_the_system_says_has_its_remedy() {
        let of = |number: i32| Remedy::of(&io::Error::from_raw_os_error(number));
        let folder = |number| JournalError::Folder(io::Error::from_raw_os_error(number)).remedy();
        // ENOENT, EACCES, EISDIR; EIO, EFBIG, EROFS; ENOSPC, EDQUOT
        assert_eq!([2, 13, 21].map(of), [Remedy::Look; 3]);
        assert_eq!([5, 27, 30].map(of), [Remedy::RestartMachine; 3]);
        assert_eq!([28, 122].map(of), [Remedy::MakeRoom; 2]);
        // EINVAL, EACCES; EIO; ENOSPC
        assert_eq!([22, 13].map(folder), [Remedy::OtherPlace; 2]);
        assert_eq!(folder(5), Remedy::RestartMachine);
        assert_eq!(folder(28), Remedy::MakeRoom);
        assert_eq!(JournalError::Lost.remedy(), Remedy::RestartMachine);
        assert_eq!(JournalError::Unfinished.remedy(), Remedy::Look);
        assert_eq!(JournalError::NoSuchJournal(3).remedy(), Remedy::MendProgram);
        let eio = io::Error::from_raw_os_error(5);
        assert_eq!(Remedy::of_displaced(&eio), Remedy::RestartMachine);
        let moved = Displaced::Moved.into();
        assert_eq!(Remedy::of_displaced(&moved), Remedy::Look);
    }
}
