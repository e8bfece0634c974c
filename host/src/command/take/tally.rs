//! What came of the frames of one run, counted.
use super::super::bytes::counted;
use super::super::Ended;
use std::fmt;
use thoweldeck::Reason;

/// What came of a frame.
#[derive(Clone, Copy, Debug, PartialEq, Eq)]
pub enum Came {
    /// A piece that brought something.
    New,
    /// A piece of which all was held.
    Repeat,
    /// A piece of another file, as a shared downlink has many.
    Other,
    /// A piece of the record's file that does not fit it: it ends beyond it, or differs from what is held.
    Contradicts,
    /// A frame that is refused for itself.
    Damaged,
    /// A directory entry.
    Entry,
    /// A request.
    Request,
    /// Something that could not be read.
    Unread,
}

impl Came {
    /// What a refused frame counts as.
    pub fn refused(reason: Reason) -> Came {
        match reason {
            Reason::OtherFile => Came::Other,
            Reason::Beyond | Reason::Differs => Came::Contradicts,
            _ => Came::Damaged,
        }
    }
}

/// How many came to what.
#[derive(Clone, Debug, Default)]
pub struct Tally {
    all: Vec<Came>,
}

impl Tally {
    /// Counts one more.
    pub fn add(&mut self, came: Came) {
        self.all.push(came);
    }

    fn count(&self, came: Came) -> usize {
        self.all.iter().filter(|one| **one == came).count()
    }

    /// How the run ended: other files' pieces and damaged frames are what every pass has, and no reason to complain.
    pub fn ended(&self) -> Ended {
        if self.count(Came::Contradicts) > 0 {
            Ended::Contradicted
        } else if self.count(Came::Unread) > 0 {
            Ended::Partly
        } else {
            Ended::Well
        }
    }
}

impl fmt::Display for Tally {
    fn fmt(&self, f: &mut fmt::Formatter<'_>) -> fmt::Result {
        let unread = self.count(Came::Unread);
        let parts = [
            (self.count(Came::New), "with something new"),
            (self.count(Came::Repeat), "repeated"),
            (self.count(Came::Other), "of other files"),
            (self.count(Came::Contradicts), "contradicting the record"),
            (self.count(Came::Damaged), "damaged"),
            (self.count(Came::Entry), "from the directory"),
            (self.count(Came::Request), "with requests"),
        ];
        write!(f, "{}", counted(self.all.len() - unread, "frame"))?;
        let mut before = ": ";
        for (count, what) in parts.into_iter().filter(|(count, _)| *count > 0) {
            write!(f, "{before}{count} {what}")?;
            before = ", ";
        }
        if unread > 0 {
            write!(f, "; {unread} that could not be read")?;
        }
        Ok(())
    }
}

#[cfg(test)]
mod tests {
    use super::*;

    fn told(all: &[Came]) -> (String, Ended) {
        let tally = Tally { all: all.to_vec() };
        (tally.to_string(), tally.ended())
    }

    #[test]
    fn all_are_counted_and_the_worst_decides() {
        assert_eq!(told(&[]), ("0 frames".to_string(), Ended::Well));
        assert_eq!(told(&[Came::New]), ("1 frame: 1 with something new".to_string(), Ended::Well));
        let usual = [Came::Damaged, Came::New, Came::Other, Came::New, Came::Entry, Came::Repeat, Came::Request];
        let line = "7 frames: 2 with something new, 1 repeated, 1 of other files, 1 damaged, 1 from the directory, 1 with requests";
        assert_eq!(told(&usual), (line.to_string(), Ended::Well));
        let line = "1 frame: 1 with something new; 2 that could not be read";
        assert_eq!(told(&[Came::Unread, Came::New, Came::Unread]), (line.to_string(), Ended::Partly));
        let line = "1 frame: 1 contradicting the record; 1 that could not be read";
        assert_eq!(told(&[Came::Contradicts, Came::Unread]), (line.to_string(), Ended::Contradicted));
    }

    #[test]
    fn every_reason_counts_as_something() {
        for reason in Reason::ALL {
            let wanted = match reason.number() {
                9 => Came::Other,
                10 | 11 => Came::Contradicts,
                _ => Came::Damaged,
            };
            assert_eq!(Came::refused(reason), wanted, "{reason}");
        }
    }
}
