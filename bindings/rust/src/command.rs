//! The commands by their words.

/// A command that reads lines. `docs/FORMATS.md` of the repository describes them.
#[derive(Clone, Copy, Debug, PartialEq, Eq, Hash)]
pub enum Command {
    /// The request signer: events in, its replies out.
    Script,
    /// Digests, HMAC and Base64.
    Hmac,
    /// What a signing service sees of a request head.
    View,
    /// The credential broker: events in, its replies out.
    Grant,
    /// AWS Signature Version 4.
    Sigv4,
    /// Whether replies that are claimed are the signer's.
    Audit,
}

impl Command {
    /// All of them.
    pub const ALL: [Command; 6] =
        [Command::Script, Command::Hmac, Command::View, Command::Grant, Command::Sigv4, Command::Audit];

    /// Its word on the program's command line.
    ///
    /// ```
    /// assert_eq!(domreth::Command::Sigv4.name(), "sigv4");
    /// ```
    pub fn name(self) -> &'static str {
        match self {
            Command::Script => "script",
            Command::Hmac => "hmac",
            Command::View => "view",
            Command::Grant => "grant",
            Command::Sigv4 => "sigv4",
            Command::Audit => "audit",
        }
    }
}
