//! Answers in words that fit the port.

use crate::Answer;

/// An answer of the port in words: of a start or a recovery. [`Answer`] itself has the words of a
/// job on the model.
///
/// ```
/// use perlovasta_dock::{Answer, port_words};
///
/// assert_eq!(port_words(Answer::Unfinished), "given up: the time ran out");
/// assert_eq!(port_words(Answer::Fault), Answer::Fault.words());
/// ```
#[must_use]
pub const fn port_words(answer: Answer) -> &'static str {
    match answer {
        Answer::Malformed => {
            "the count, the data or the settings are wrong, or there are no bytes to take"
        }
        Answer::NotReady => "a recovery comes first, or the chip is not ready",
        Answer::Unfinished => "given up: the time ran out",
        answer => answer.words(),
    }
}
