// What the examples of the signer's pages share: a token that is good for an hour, and a service that puts it into a
// request, which is a list of headers.
pub use domreth::signer::{BoxError, ProvideCredential, Refusal, SignRequest, Signer, SigningCredential};
pub use std::time::{Duration, SystemTime};

pub struct Token(pub &'static str);

impl SigningCredential for Token {
    fn lasts_until(&self) -> Option<SystemTime> {
        None
    }
}

pub struct TokenServer(pub &'static str);

impl ProvideCredential for TokenServer {
    type Credential = Token;
    type Context = ();

    async fn provide_credential(&self, _ctx: &()) -> Result<Option<Token>, BoxError> {
        Ok(Some(Token(self.0)))
    }
}

pub struct Header(pub &'static str);

impl SignRequest for Header {
    type Request = Vec<String>;
    type Credential = Token;
    type Context = ();

    async fn sign_request(
        &self,
        _ctx: &(),
        headers: &mut Vec<String>,
        token: &Token,
        _expires_in: Option<Duration>,
        _now: SystemTime,
    ) -> Result<(), BoxError> {
        headers.push(format!("{}: {}", self.0, token.0));
        Ok(())
    }
}

/// What the future returns, which waits for nothing.
pub fn at_once<T>(future: impl Future<Output = T>) -> T {
    let mut cx = std::task::Context::from_waker(std::task::Waker::noop());
    match std::pin::pin!(future).poll(&mut cx) {
        std::task::Poll::Ready(output) => output,
        std::task::Poll::Pending => panic!("it waits"),
    }
}
