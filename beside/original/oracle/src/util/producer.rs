// From fe2o3-amqp 0.18.4 (https://github.com/minghuaw/fe2o3-amqp), licensed under MIT OR Apache-2.0; NOTICE has the texts.
// What stands between `// >>> FILE` and `// <<<` is that file's text, unchanged; the rest is ours.
// >>> src/util/producer.rs
use std::sync::Arc;

use tokio::sync::Notify;

#[derive(Debug)]
pub struct Producer<State> {
    pub notifier: Arc<Notify>,
    pub(crate) state: State,
}

impl<State> Producer<State> {
    pub fn new(notifier: Arc<Notify>, state: State) -> Self {
        Self { notifier, state }
    }
}

pub(crate) trait Produce {
    type Item: Send;
    type Outcome: Send;

    async fn produce(&mut self, item: Self::Item) -> Self::Outcome;
}

pub(crate) trait ProducerState {
    type Item: Send;
    type Outcome: Send;

    fn update_state(&mut self, item: Self::Item) -> Self::Outcome;
}

impl<T> Produce for Producer<T>
where
    T: ProducerState + Send,
{
    type Item = T::Item;
    type Outcome = T::Outcome;

    async fn produce(&mut self, item: Self::Item) -> Self::Outcome {
        let outcome = self.state.update_state(item);
        self.notifier.notify_waiters();
        outcome
    }
}
// <<<
