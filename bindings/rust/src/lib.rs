//! GraphQL text from AST JSON, the form of graphql-js 16, by a printer of which it is proved that each text which it prints is read as the tree that was handed
//! over, and as no other.
//!
//! ```
//! use graphql_ast::{Layout, Unknown, print_value};
//!
//! let json = r#"{"kind":"ListValue","values":[{"kind":"IntValue","value":"4"}]}"#;
//! assert_eq!(print_value(json, Layout::OneLine, Unknown::Refuse)?, "[4]");
//! # Ok::<(), graphql_ast::Error>(())
//! ```

use std::fmt;

/// The layout of a text.
#[derive(Clone, Copy, Debug, PartialEq, Eq)]
pub enum Layout<'p> {
    /// On one line.
    OneLine,
    /// Over several lines. Each that isn't empty begins with the prefix, of spaces and tabs, as often as its level; the text begins at this one.
    Lines { prefix: &'p str, level: usize },
}

impl Default for Layout<'_> {
    /// Two spaces a level.
    fn default() -> Self {
        Layout::Lines { prefix: "  ", level: 0 }
    }
}

/// What becomes of a member that no node of its kind has.
#[derive(Clone, Copy, Debug, Default, PartialEq, Eq)]
pub enum Unknown {
    /// The JSON is refused.
    #[default]
    Refuse,
    /// The member is passed over.
    PassOver,
}

/// Why there is no text. What it holds is a message.
#[derive(Clone, Debug, PartialEq, Eq)]
#[non_exhaustive]
pub enum Error {
    /// The text is no JSON.
    NotJson(String),
    /// The JSON is of no such tree.
    NoTree(String),
    /// No text is read as the tree.
    IllFormed(String),
    /// The starting level and the nesting of the tree are above `usize::MAX` together.
    LevelOverflow(String),
    /// Memory was refused.
    OutOfMemory(String),
    /// The prefix has other characters than spaces and tabs.
    WrongPrefix(String),
}

impl Error {
    /// The message.
    pub fn message(&self) -> &str {
        match self {
            Error::NotJson(it) | Error::NoTree(it) | Error::IllFormed(it) | Error::LevelOverflow(it) | Error::OutOfMemory(it) | Error::WrongPrefix(it) => it,
        }
    }
}

impl fmt::Display for Error {
    fn fmt(&self, f: &mut fmt::Formatter<'_>) -> fmt::Result {
        f.write_str(self.message())
    }
}

impl std::error::Error for Error {}

mod calls {
    pub type Print =
        unsafe extern "C" fn(*const u8, usize, bool, *const u8, usize, usize, bool, *mut u8, usize, *mut usize) -> u32;

    extern "C" {
        pub fn graphql_ast_print_json(json: *const u8, json_len: usize, broken: bool, prefix: *const u8, prefix_len: usize, level: usize, pass_over: bool,
            out: *mut u8, out_len: usize, needed: *mut usize) -> u32;
        pub fn graphql_ast_print_value_json(json: *const u8, json_len: usize, broken: bool, prefix: *const u8, prefix_len: usize, level: usize, pass_over: bool,
            out: *mut u8, out_len: usize, needed: *mut usize) -> u32;
        pub fn graphql_ast_check_json(json: *const u8, json_len: usize, pass_over: bool, out: *mut u8, out_len: usize, needed: *mut usize) -> u32;
        pub fn graphql_ast_write_json(json: *const u8, json_len: usize, pass_over: bool, out: *mut u8, out_len: usize, needed: *mut usize) -> u32;
        pub fn graphql_ast_version() -> u32;
    }
}

const DONE: u32 = 0;
const TOO_SHORT: u32 = 1;

/// Calls with a buffer of some length, and once more with one as long as it takes, where that is too short.
fn text_of(first: usize, call: impl Fn(&mut [u8], &mut usize) -> u32) -> Result<String, Error> {
    let mut out = vec![0; first];
    let mut needed = 0;
    let mut status = call(&mut out, &mut needed);
    if needed > out.len() {
        if out.try_reserve_exact(needed - out.len()).is_err() {
            return Err(Error::OutOfMemory("out of memory".to_string()));
        }
        out.resize(needed, 0);
        status = call(&mut out, &mut needed);
    }
    out.truncate(needed);
    let text = String::from_utf8(out).expect("a text or a message is UTF-8");
    match status {
        DONE => Ok(text),
        TOO_SHORT => unreachable!("the buffer is as long as the text"),
        2 => Err(Error::NotJson(text)),
        3 => Err(Error::NoTree(text)),
        4 => Err(Error::IllFormed(text)),
        5 => Err(Error::LevelOverflow(text)),
        6 => Err(Error::OutOfMemory(text)),
        _ => Err(Error::WrongPrefix(text)),
    }
}

fn print_by(call: calls::Print, json: &str, layout: Layout<'_>, unknown: Unknown) -> Result<String, Error> {
    let (broken, prefix, level) = match layout {
        Layout::OneLine => (false, "", 0),
        Layout::Lines { prefix, level } => (true, prefix, level),
    };
    // AST JSON is longer than its text, but for deep trees under a long prefix
    text_of(json.len() + 64, |out, needed| unsafe {
        call(json.as_ptr(), json.len(), broken, prefix.as_ptr(), prefix.len(), level, unknown == Unknown::PassOver, out.as_mut_ptr(), out.len(), needed)
    })
}

/// A document in AST JSON as GraphQL text.
pub fn print(json: &str, layout: Layout<'_>, unknown: Unknown) -> Result<String, Error> {
    print_by(calls::graphql_ast_print_json, json, layout, unknown)
}

/// A value in AST JSON as GraphQL text.
pub fn print_value(json: &str, layout: Layout<'_>, unknown: Unknown) -> Result<String, Error> {
    print_by(calls::graphql_ast_print_value_json, json, layout, unknown)
}

/// Whether the JSON is of a document that is well formed, or why not.
pub fn check(json: &str, unknown: Unknown) -> Result<(), Error> {
    text_of(200, |out, needed| unsafe {
        calls::graphql_ast_check_json(json.as_ptr(), json.len(), unknown == Unknown::PassOver, out.as_mut_ptr(), out.len(), needed)
    })
    .map(drop)
}

/// The AST JSON of a document in one form.
pub fn normalize(json: &str, unknown: Unknown) -> Result<String, Error> {
    text_of(json.len() + 64, |out, needed| unsafe {
        calls::graphql_ast_write_json(json.as_ptr(), json.len(), unknown == Unknown::PassOver, out.as_mut_ptr(), out.len(), needed)
    })
}

/// The version of the interface that the library has.
pub fn version() -> u32 {
    unsafe { calls::graphql_ast_version() }
}

#[cfg(test)]
mod tests {
    use super::*;

    const QUERY: &str = r#"{"kind":"Document","definitions":[{"kind":"OperationDefinition","operation":"query","selectionSet":{"kind":"SelectionSet","selections":[{"kind":"Field","name":{"kind":"Name","value":"a"}}]}}]}"#;

    fn call(json: &str, out: &mut [u8], needed: &mut usize) -> u32 {
        let (to, room) = (out.as_mut_ptr(), out.len());
        unsafe { calls::graphql_ast_print_json(json.as_ptr(), json.len(), true, "\t".as_ptr(), 1, 0, false, to, room, needed) }
    }

    /// What stands in a buffer of so many bytes, and that nothing is written behind the text or the cut message, within the buffer or beyond.
    fn check_room(json: &str, status: u32, wanted: &str, room: usize) {
        let mut out = vec![b'#'; wanted.len() + 2];
        let mut needed = 77;
        let answer = call(json, &mut out[..room], &mut needed);
        assert_eq!(needed, wanted.len());
        if status == DONE && room < wanted.len() {
            assert_eq!(answer, TOO_SHORT);
            assert!(out[room..].iter().all(|byte| *byte == b'#'));
            return;
        }
        assert_eq!(answer, status);
        let kept = (0..=room.min(wanted.len())).rev().find(|end| wanted.is_char_boundary(*end)).unwrap();
        assert_eq!(&out[..kept], &wanted.as_bytes()[..kept]);
        assert!(out[kept..].iter().all(|byte| *byte == b'#'));
    }

    /// The call with a buffer of each length up to one byte more than it needs, and the safe call that begins with such a one.
    fn check_each_length(json: &str, wanted: Result<&str, Error>) {
        let (status, text) = match &wanted {
            Ok(text) => (DONE, *text),
            Err(error) => (if let Error::NoTree(_) = error { 3 } else { 4 }, error.message()),
        };
        for room in 0..=text.len() + 1 {
            check_room(json, status, text, room);
            assert_eq!(text_of(room, |out, needed| call(json, out, needed)).as_deref(), wanted.as_deref());
        }
    }

    #[test]
    fn buffers_of_each_length_are_answered() {
        check_each_length(QUERY, Ok("{\n\ta\n}\n"));
        check_each_length(
            r#"{"kind":"Document","definitions":[]}"#,
            Err(Error::IllFormed("at the root: a document without a definition".to_string())),
        );
        check_each_length(r#"{"kind":"Dä𝄞"}"#, Err(Error::NoTree("at `kind`: found the kind `Dä𝄞` where Document was wanted".to_string())));
    }
}
