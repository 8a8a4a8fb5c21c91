//! The messages of one list.

use crate::Message;
use std::fmt;
use std::ops::Deref;

/// The one or two messages of a list that is no tree.
///
/// ```
/// use sorbrudder::{ReadError, Reader, Tokens};
///
/// let list: Tokens = "(a]".parse().unwrap();
/// let Err(ReadError::Messages(messages)) = Reader::new().read(&list, 6) else {
///     panic!("the brackets do not match");
/// };
/// assert_eq!(messages.len(), 2);
/// assert_eq!(messages.to_string().split("; ").next(), Some("`(` is closed by `]` and not by `)` (at 0-3)"));
/// ```
#[derive(Copy, Clone, PartialEq, Eq, Hash)]
pub struct Messages {
    /// Where there is one only, it stands twice.
    messages: [Message; 2],
    count: usize,
}

impl Messages {
    /// The messages of the records in front of the message buffer.
    pub(crate) fn from_records(records: &[u32], count: usize) -> Option<Self> {
        let records = records.chunks(sorbrudder_sys::MESSAGE_WORDS).take(count);
        let mut messages = records.map(Message::from_record);
        let first = messages.next()??;
        let second = messages.next().unwrap_or(Some(first))?;
        Some(Self {
            messages: [first, second],
            count,
        })
    }
}

impl Deref for Messages {
    type Target = [Message];

    fn deref(&self) -> &[Message] {
        &self.messages[..self.count.min(2)]
    }
}

impl AsRef<[Message]> for Messages {
    fn as_ref(&self) -> &[Message] {
        self
    }
}

impl<'m> IntoIterator for &'m Messages {
    type Item = &'m Message;
    type IntoIter = std::slice::Iter<'m, Message>;

    fn into_iter(self) -> Self::IntoIter {
        self.iter()
    }
}

/// The messages that are there, and no other.
impl fmt::Debug for Messages {
    fn fmt(&self, f: &mut fmt::Formatter<'_>) -> fmt::Result {
        f.debug_list().entries(self.iter()).finish()
    }
}

impl fmt::Display for Messages {
    fn fmt(&self, f: &mut fmt::Formatter<'_>) -> fmt::Result {
        for (place, message) in self.iter().enumerate() {
            let before = if place > 0 { "; " } else { "" };
            write!(f, "{before}{message} (at {})", message.span())?;
        }
        Ok(())
    }
}

impl std::error::Error for Messages {}
