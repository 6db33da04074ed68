//! A signer whose credentials expire: async calls that share a cached credential, load it once for all that wait, and
//! pass the turn on in order.
//!
//! The author brings a credential ([`SigningCredential`]), a provider that finds it ([`ProvideCredential`]), or a chain
//! of them ([`ProvideCredentialChain`]), and a service that signs a request with it ([`SignRequest`]). Their async
//! functions are the author's own, and so is what they work in. Traits and names are those of the crate reqsign-core,
//! where they fit.
//!
//! [`Signer::sign`] is a future of any runtime: it starts nothing, keeps no thread and asks for no timer. What a
//! provider or a service does is done within the call that has its turn, while that call is polled.
//!
//! # When a credential is loaded
//!
//! A call uses the cached credential where it is fresh and lasts to the call's deadline: the end of its operation and
//! the service's margin. Otherwise it loads one, which has to last to that deadline. Calls that come meanwhile wait, in
//! the order of their first polls, and use what was loaded where it serves them. An error of a provider is its call's
//! alone: the next call loads again. Nothing is retried within a call, and an old credential is no answer to a failed
//! load.
//!
//! # A future that is dropped
//!
//! It gives its call up, wherever it stands, and the turn passes on: a load of it that was under way is dropped, and
//! the next call loads again. The request is changed where `sign` returns `Ok`, and stays as it was in every other
//! case.
//!
//! Poll each future until it returns, or drop it: one that is kept and not polled keeps its turn, as one that keeps a
//! lock does. So does a branch of `select!` that is not polled while another one is worked on.
//!
//! # Under tokio
//!
//! A call that finds a fresh credential is ready at its first poll, and counts nothing against tokio's budget. A loop of
//! such calls never yields: put `tokio::task::yield_now().await` into it if other tasks of its thread have to run.
//! A time limit round a call, as `tokio::time::timeout`, drops it, and with it the load that was under way. So a limit
//! has to be longer than a load, or the provider spawns its load and keeps the handle.
//!
//! # What differs from reqsign-core
//!
//! Request and context are types of the author's. A credential says the moments until which it is fresh and lasts, and
//! a service by what margin it has to outlast an operation, so the library compares them. `sign_request` is handed the
//! moment at which the credential was found to serve. A copy of the request is signed, and takes its place as a whole.
//! Clocks are handed in.
//!
//! # What is proved
//!
//! Whom to ask, what to sign with, why a call is refused and who is next are answers of a [`Desk`](crate::desk::Desk),
//! and these are proved. This module is tested, and not proved: it hands the desk what happens, and wakes whom it
//! names.
//!
//! ```
//! use domreth::signer::{BoxError, ProvideCredential, SignRequest, Signer, SigningCredential};
//! use std::time::{Duration, SystemTime};
//!
//! struct Token {
//!     text: String,
//!     until: SystemTime,
//! }
//!
//! impl SigningCredential for Token {
//!     fn lasts_until(&self) -> Option<SystemTime> {
//!         Some(self.until)
//!     }
//! }
//!
//! struct TokenServer;
//!
//! impl ProvideCredential for TokenServer {
//!     type Credential = Token;
//!     type Context = ();
//!
//!     async fn provide_credential(&self, _ctx: &()) -> Result<Option<Token>, BoxError> {
//!         let until = SystemTime::now() + Duration::from_secs(3600);
//!         Ok(Some(Token { text: "let me in".into(), until }))
//!     }
//! }
//!
//! struct Bearer;
//!
//! impl SignRequest for Bearer {
//!     type Request = Vec<(String, String)>;
//!     type Credential = Token;
//!     type Context = ();
//!
//!     async fn sign_request(
//!         &self,
//!         _ctx: &(),
//!         headers: &mut Vec<(String, String)>,
//!         token: &Token,
//!         _expires_in: Option<Duration>,
//!         _now: SystemTime,
//!     ) -> Result<(), BoxError> {
//!         headers.push(("authorization".into(), format!("Bearer {}", token.text)));
//!         Ok(())
//!     }
//! }
//!
//! # use domreth::signer::Refusal;
//! async fn authorized() -> Result<Vec<(String, String)>, Refusal> {
//!     let signer = Signer::new((), TokenServer, Bearer)?;
//!     let mut headers = Vec::new();
//!     signer.sign(&mut headers, None).await?;
//!     Ok(headers)
//! }
//! # let polled = std::pin::pin!(authorized()).poll(&mut std::task::Context::from_waker(std::task::Waker::noop()));
//! # let std::task::Poll::Ready(Ok(headers)) = polled else { panic!() };
//! # assert_eq!(headers, [("authorization".to_owned(), "Bearer let me in".to_owned())]);
//! ```
mod call;
mod credential;
mod line;
mod provide;
mod refusal;
mod request;
mod sign;

pub use credential::SigningCredential;
pub use provide::{ProvideCredential, ProvideCredentialChain, Providers};
pub use refusal::{BoxError, Refusal};
pub use request::SignRequest;
pub use sign::Signer;
