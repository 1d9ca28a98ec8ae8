// Tail of the oracle: reads the store's private state. Nothing above this line is ours.

impl<T: ReactorData + Copy> ActionStore<T> {
    /// All values held, ascending by tag.
    pub(crate) fn held(&self) -> Vec<(Tag, T)> {
        let mut held = Vec::new();
        for (&offset, bucket) in &self.offsets {
            for (index, value) in bucket.actions.iter().enumerate() {
                if let Some(value) = value {
                    held.push((Tag::new(offset, bucket.base_microstep + index), *value));
                }
            }
        }
        held
    }

    /// All buckets with their next microstep, ascending by offset.
    pub(crate) fn buckets(&self) -> Vec<(Duration, usize)> {
        self.offsets
            .iter()
            .map(|(&offset, bucket)| (offset, bucket.next_microstep))
            .collect()
    }

    /// Whether a value stands at exactly this tag.
    pub(crate) fn holds(&self, tag: Tag) -> bool {
        self.offsets
            .get(&tag.offset())
            .is_some_and(|bucket| bucket.get(tag.microstep()).is_some())
    }

    /// How many entries a push at this tag would add to its padded deque.
    pub(crate) fn padding_for(&self, tag: Tag) -> usize {
        let microstep = tag.microstep();
        match self.offsets.get(&tag.offset()) {
            None => microstep,
            Some(bucket) if microstep < bucket.base_microstep => bucket.base_microstep - microstep,
            Some(bucket) => {
                (microstep - bucket.base_microstep).saturating_sub(bucket.actions.len())
            }
        }
    }
}
