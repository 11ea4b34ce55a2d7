// subject.rs: the three that are measured: the library command by command, the library with a whole tape, the plain card.

use crate::plain::Plain;
use crate::workload::{measured, measured_tape, Workload};
use card_library::paint::{touched, Touched};
use card_library::session::Session;
use std::time::{Duration, Instant};

#[derive(Clone, Copy, PartialEq, Debug)]
pub enum Subject {
    Library,
    WholeTape,
    Plain,
}

pub const SUBJECTS: [Subject; 3] = [Subject::Library, Subject::WholeTape, Subject::Plain];

impl Subject {
    /// Hands over one run of the measured tape; what comes before it has been run.
    fn with<R>(self, workload: &Workload, measure: impl FnOnce(&mut dyn FnMut()) -> R) -> R {
        let (mut session, mut plain) = (workload.stage::<Session>(), workload.stage::<Plain>());
        match self {
            Subject::Library => measure(&mut || measured(&mut session, &workload.tape)),
            Subject::WholeTape => measure(&mut || measured_tape(&mut session, &workload.tape)),
            Subject::Plain => measure(&mut || measured(&mut plain, &workload.tape)),
        }
    }

    pub fn time(self, workload: &Workload) -> Duration {
        self.with(workload, |run| {
            let start = Instant::now();
            run();
            start.elapsed()
        })
    }

    /// The most stack that the tape touches, its caller's with it.
    pub fn stack(self, workload: &Workload) -> usize {
        self.with(workload, |run| {
            let Touched { lowest, top } = touched(run);
            top - lowest
        })
    }

    pub fn named(name: &str) -> Option<Subject> {
        SUBJECTS.into_iter().find(|subject| format!("{subject:?}") == name)
    }
}
