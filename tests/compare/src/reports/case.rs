//! An argument of the report program, and what the second program says of it.

use reference::report::{ByCounts, ByWalks, Report};
use std::ffi::OsString;

/// Which of the second program's two counts of leaf words judges.
#[derive(Clone, Copy, Debug, PartialEq, Eq)]
pub enum CountBy {
    /// The definition's, which walks every page.
    Walks,
    /// The one that is kept from store to store.
    Counts,
}

/// How the bytes of a case come to the program.
pub enum Comes {
    /// They stand in a file.
    InFile,
    /// Through a named pipe, each piece when the last has been read.
    InPieces(Vec<Vec<u8>>),
    /// Through a terminal; when they have been read, the next read fails.
    AndFail(Vec<u8>),
}

pub struct Case {
    /// The argument. Without one the trace gets a name of its own.
    pub name: Option<OsString>,
    pub comes: Comes,
    /// What stands in the file; nothing where the name can't be read.
    pub trace: Option<Vec<u8>>,
    pub count_by: CountBy,
    /// The outcomes that the case is there for, each with whether it holds, whatever the program
    /// under test says.
    pub outcomes: Vec<(String, bool)>,
}

impl Case {
    pub fn of(trace: Vec<u8>, count_by: CountBy) -> Case {
        Case {
            name: None,
            comes: Comes::InFile,
            trace: Some(trace),
            count_by,
            outcomes: Vec::new(),
        }
    }

    /// A file that is there already, under this name.
    pub fn named(name: OsString, trace: Vec<u8>) -> Case {
        Case {
            name: Some(name),
            ..Case::of(trace, CountBy::Walks)
        }
    }

    pub fn unread(name: OsString) -> Case {
        Case {
            trace: None,
            ..Case::named(name, Vec::new())
        }
    }

    /// The same trace through a named pipe.
    pub fn in_pieces(trace: Vec<u8>, pieces: Vec<Vec<u8>>) -> Case {
        Case {
            comes: Comes::InPieces(pieces),
            ..Case::of(trace, CountBy::Counts)
        }
    }

    /// These bytes, and a read that fails.
    pub fn failing(bytes: Vec<u8>) -> Case {
        Case {
            name: None,
            comes: Comes::AndFail(bytes),
            ..Case::unread(OsString::new())
        }
    }

    pub fn remark(self, remark: String) -> Case {
        self.with([(remark, true)])
    }

    pub fn with(mut self, outcomes: impl IntoIterator<Item = (String, bool)>) -> Case {
        self.outcomes.extend(outcomes);
        self
    }

    pub fn report(&self) -> Report {
        match (&self.trace, self.count_by) {
            (None, _) => Report::Unread,
            (Some(trace), CountBy::Walks) => Report::of::<ByWalks>(&trace[..]),
            (Some(trace), CountBy::Counts) => Report::of::<ByCounts>(&trace[..]),
        }
    }
}
