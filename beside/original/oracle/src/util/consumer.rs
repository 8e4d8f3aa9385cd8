// From fe2o3-amqp 0.18.4 (https://github.com/minghuaw/fe2o3-amqp), licensed under MIT OR Apache-2.0; NOTICE has the texts.
// What stands between `// >>> FILE` and `// <<<` is that file's text, unchanged; the rest is ours.
// >>> src/util/consumer.rs
use std::sync::Arc;

use tokio::sync::Notify;

use super::Producer;

#[derive(Debug)]
pub struct Consumer<State> {
    pub notifier: Arc<Notify>,
    state: State,
}

impl<State> Consumer<State> {
    pub fn new(notifier: Arc<Notify>, state: State) -> Self {
        Self { notifier, state }
    }

    pub fn state(&self) -> &State {
        &self.state
    }
}

impl<State> AsRef<State> for Consumer<Arc<State>> {
    fn as_ref(&self) -> &State {
        &self.state
    }
}

impl<State: Clone> Consumer<State> {
    pub fn producer(&self) -> Producer<State> {
        Producer::new(self.notifier.clone(), self.state.clone())
    }
}

pub trait Consume {
    type Item: Send;
    type Outcome: Send;

    async fn consume(&self, item: Self::Item) -> Self::Outcome;
}

cfg_transaction! {
    pub trait TryConsume: Consume {
        type Error;

        fn try_consume(&self, item: Self::Item) -> Result<Self::Outcome, Self::Error>;
    }
}
// <<<
