//! The token of a session: a header where a head is signed, and a pair of the query where a link is made.
use super::SignError;
use std::fmt::Write;

/// The header of a token.
pub(super) const HEADER: &str = "x-amz-security-token";

const KEY: &str = "X-Amz-Security-Token";

/// The headers but for tokens, and then this one.
pub(super) fn with_header<'a>(headers: &[(&'a str, &'a [u8])], token: &'a str) -> Vec<(&'a str, &'a [u8])> {
    let others = headers.iter().copied().filter(|(name, _)| !name.eq_ignore_ascii_case(HEADER));
    others.chain([(HEADER, token.as_bytes())]).collect()
}

/// The URI with the token as the last pair of its query. A fragment goes.
pub(super) fn with_pair(uri: &str, token: &str) -> Result<String, SignError> {
    let uri = uri.split('#').next().unwrap_or_default();
    let mut text = uri.to_owned();
    match uri.split_once('?') {
        None => text.push('?'),
        Some((_, query)) if query.split('&').any(is_token) => return Err(SignError::Already),
        Some((_, "")) => {}
        Some(_) => text.push('&'),
    }
    text.push_str(KEY);
    text.push('=');
    push_encoded(&mut text, token);
    Ok(text)
}

fn is_token(pair: &str) -> bool {
    pair.split('=').next().is_some_and(|key| decoded(key) == KEY.as_bytes())
}

fn decoded(key: &str) -> Vec<u8> {
    let mut bytes = Vec::with_capacity(key.len());
    let mut rest = key.as_bytes();
    while let Some((&first, behind)) = rest.split_first() {
        let escape = rest.get(1..3).and_then(|digits| std::str::from_utf8(digits).ok());
        match escape.and_then(|digits| u8::from_str_radix(digits, 16).ok()) {
            Some(byte) if first == b'%' => {
                bytes.push(byte);
                rest = &rest[3..];
            }
            _ => {
                bytes.push(first);
                rest = behind;
            }
        }
    }
    bytes
}

/// Adds the text percent-encoded (RFC 3986, 2.1): all but what is unreserved.
fn push_encoded(text: &mut String, value: &str) {
    for byte in value.bytes() {
        if byte.is_ascii_alphanumeric() || b"-._~".contains(&byte) {
            text.push(char::from(byte));
        } else {
            let _ = write!(text, "%{byte:02X}");
        }
    }
}

#[cfg(test)]
mod tests {
    use super::*;

    #[test]
    fn a_token_is_the_last_pair_of_the_query() {
        for (uri, with_token) in [
            ("https://e.x/a", "https://e.x/a?X-Amz-Security-Token=a%2Fb%3D"),
            ("https://e.x/a?", "https://e.x/a?X-Amz-Security-Token=a%2Fb%3D"),
            ("https://e.x/a?b=c#d", "https://e.x/a?b=c&X-Amz-Security-Token=a%2Fb%3D"),
        ] {
            assert_eq!(with_pair(uri, "a/b="), Ok(with_token.to_owned()));
        }
        for uri in ["https://e.x/?X-Amz-Security-Token=1", "https://e.x/?a&X-Amz-Security%2dToken"] {
            assert_eq!(with_pair(uri, "a"), Err(SignError::Already));
        }
    }

    #[test]
    fn a_head_has_one_token() {
        let headers: [(&str, &[u8]); 2] = [("X-Amz-Security-Token", b"old"), ("a", b"b")];
        assert_eq!(with_header(&headers, "new"), [("a", b"b".as_slice()), (HEADER, b"new")]);
    }
}
