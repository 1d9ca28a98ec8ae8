// Tail of the oracle: reads the queue's private state. Nothing above this line is ours.

impl<K: tinymap::Key, A: Copy> EventQueue<K, A> {
    /// Tag and stored tag of every event that waits.
    pub(crate) fn tags(&self) -> impl Iterator<Item = (Tag, Option<Tag>)> + '_ {
        self.event_queue
            .iter()
            .map(|event| (event.tag, event.action_value.map(|value| value.stored_tag)))
    }
}
