//! Why the command did not answer, and its exit status.

/// The exit statuses, the worst last.
#[derive(Clone, Copy, PartialEq, Eq, PartialOrd, Ord)]
pub enum Status {
    Answered = 0,
    Refused = 1,
    CalledWrongly = 2,
    NotRead = 3,
}

/// What is told on standard error; and for a refusal the line that other programs are printed.
pub struct Failure {
    pub status: Status,
    pub told: String,
    pub line: Option<String>,
}

impl Failure {
    pub fn refused(told: String, line: String) -> Failure {
        Failure { status: Status::Refused, told, line: Some(line) }
    }

    pub fn called_wrongly(told: String) -> Failure {
        Failure { status: Status::CalledWrongly, told, line: None }
    }

    pub fn not_read(told: String) -> Failure {
        Failure { status: Status::NotRead, told, line: None }
    }
}
