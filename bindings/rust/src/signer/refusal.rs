//! Why a call is refused.
use crate::desk::DeskError;
use std::error::Error;
use std::fmt;
use std::time::SystemTime;

/// An error of a provider or of a service. Who makes one keeps secrets out of its texts.
///
/// ```
/// let error: domreth::signer::BoxError = "no route to host".into();
/// assert_eq!(error.to_string(), "no route to host");
/// ```
pub type BoxError = Box<dyn Error + Send + Sync>;

/// Why a call is refused. The request is as it was.
///
/// ```
/// use domreth::signer::Refusal;
/// use std::error::Error;
///
/// let refusal = Refusal::Provider("no route to host".into());
/// assert_eq!(refusal.to_string(), "provider failed");
/// assert_eq!(refusal.source().unwrap().to_string(), "no route to host");
/// ```
#[derive(Debug)]
#[non_exhaustive]
pub enum Refusal {
    /// No provider has a credential. In a chain a failure counts so too.
    Missing,
    /// The credential that was found does not last to the call's deadline.
    Short {
        /// The end of the operation and the service's margin.
        deadline: SystemTime,
    },
    /// The deadline, the clock's moment or one of the credential's is none of the library's: these end with the year
    /// 9999.
    Range,
    /// The provider failed.
    Provider(BoxError),
    /// The service failed.
    Service(BoxError),
    /// An allocation of the library failed.
    OutOfMemory,
    /// The library answered what it does not answer there: it is another version.
    Library,
}

impl From<DeskError> for Refusal {
    fn from(error: DeskError) -> Self {
        match error {
            DeskError::OutOfMemory => Refusal::OutOfMemory,
            DeskError::Moment => Refusal::Range,
            _ => Refusal::Library,
        }
    }
}

impl fmt::Display for Refusal {
    fn fmt(&self, f: &mut fmt::Formatter<'_>) -> fmt::Result {
        f.write_str(match self {
            Refusal::Missing => "no credential found",
            Refusal::Short { .. } => "credential does not last to the deadline",
            Refusal::Range => "moment out of range",
            Refusal::Provider(_) => "provider failed",
            Refusal::Service(_) => "service failed",
            Refusal::OutOfMemory => "out of memory",
            Refusal::Library => "unexpected answer of the library",
        })
    }
}

impl Error for Refusal {
    fn source(&self) -> Option<&(dyn Error + 'static)> {
        match self {
            Refusal::Provider(error) | Refusal::Service(error) => Some(error.as_ref()),
            _ => None,
        }
    }
}
