// From fe2o3-amqp 0.18.4 (https://github.com/minghuaw/fe2o3-amqp), licensed under MIT OR Apache-2.0; NOTICE has the texts.
// What stands between `// >>> FILE` and `// <<<` is that file's text, unchanged; the rest is ours.
use fe2o3_amqp_types::definitions;

// >>> src/connection/mod.rs
/// Why the connection stopped, shared with the sessions so they can derive
/// the reason their links observe.
///
/// The unprefixed variants describe the local side's action; the `Remote*`
/// variants describe a remote-initiated close.
#[derive(Debug, Clone, PartialEq, Eq)]
pub enum ConnectionStopReason {
    /// The connection closed cleanly (locally)
    Closed,
    /// We closed the connection with this error
    ClosedWithError(definitions::Error),
    /// The remote peer closed the connection cleanly
    RemoteClosed,
    /// The remote peer closed the connection with this error
    RemoteClosedWithError(definitions::Error),
}
// <<<
