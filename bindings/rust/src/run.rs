//! The commands of `signctl` over bytes.
use crate::room::text_of;
use crate::{Command, RunError, ffi, version};

/// The output of the command to the input: what the program writes to it. It is a function of both.
///
/// # Errors
///
/// Where a line is bad or the input too long, and where an allocation fails.
///
/// ```
/// use domreth::{Command, RunError, run};
///
/// let digest = run(Command::Hmac, b"hex_sha256 616263\n")?;
/// assert_eq!(&digest[..8], b"ba7816bf");
/// let bad = run(Command::Hmac, b"what\n").unwrap_err();
/// assert_eq!(bad, RunError::BadLine(b"line 1: not understood\n".to_vec()));
/// # Ok::<(), RunError>(())
/// ```
pub fn run(command: Command, input: &[u8]) -> Result<Vec<u8>, RunError> {
    version::look();
    let room = input.len().saturating_mul(2).saturating_add(1024);
    match text_of(room, |output, needed| call(command, input, output, needed)) {
        (ffi::DONE, text) => Ok(text),
        (ffi::BAD_LINE, text) => Err(RunError::BadLine(text)),
        (ffi::OUT_OF_MEMORY, _) => Err(RunError::OutOfMemory),
        (other, _) => Err(RunError::Status(other)),
    }
}

fn call(command: Command, input: &[u8], output: &mut [u8], needed: &mut usize) -> u8 {
    let name = command.name();
    // SAFETY: the declaration fits the export; each pointer and length are those of one slice that is lent for the
    // call, the output and `needed` to it alone; and the export asks nothing of its values.
    unsafe {
        ffi::domreth_run(
            name.as_ptr(),
            name.len(),
            input.as_ptr(),
            input.len(),
            output.as_mut_ptr(),
            output.len(),
            needed,
        )
    }
}
