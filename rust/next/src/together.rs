//! Checkpoints of many consumers, with two syncs for all whose journals lie in one file.

use crate::consumer::{Consumer, Writing};
use crate::errors::CheckpointError;
use crate::storage::Storage;
use crate::workers::WorkerId;

/// A whole checkpoint of each of these consumers, in the name of one worker: first the blocks of all but their headers, then a sync, then all
/// headers, then a sync. If their journals lie in [one file](crate::Journals), these are two syncs, however many consumers there are; if they
/// lie in several files, two for each file.
///
/// Each consumer has an answer of its own, in the order in which they came. One that is refused, or whose block can't be written, leaves the
/// others as they are. Of a sync that failed, all whose blocks it was to make durable have the error. None can be called before the last
/// sync, so that what is proved of one checkpoint holds of each: docs/PROOF.md, "Many consumers on one disk".
///
/// # Errors
/// Of each by itself, as for [`Consumer::checkpoint`].
pub fn checkpoint_all<S: Storage>(
    consumers: impl IntoIterator<Item = Consumer<S>>,
    worker: WorkerId,
) -> Vec<Result<Consumer<S>, CheckpointError<S>>> {
    let begun = consumers
        .into_iter()
        .map(|consumer| Ok(consumer.begin(worker)?.write_bodies()?));
    let bodies = sync_all(begun.collect());
    let headers = bodies
        .into_iter()
        .map(|writing| Ok(writing?.write_header()?));
    let written = sync_all(headers.collect());
    let finished = |writing: Answer<S>| writing.map(Writing::finished);
    written.into_iter().map(finished).collect()
}

type Answer<S> = Result<Writing<S>, CheckpointError<S>>;

// Makes durable what was written of each.
fn sync_all<S: Storage>(all: Vec<Answer<S>>) -> Vec<Answer<S>> {
    let mut done: Vec<Answer<S>> = Vec::with_capacity(all.len());
    // which of them were synced by themselves: one of each file
    let mut first = Vec::new();
    for writing in all {
        let answer = writing.and_then(|writing| {
            let synced = first.iter().filter_map(|i: &usize| done[*i].as_ref().ok());
            let (answer, by_itself) = writing.sync_after(synced);
            if by_itself && answer.is_ok() {
                first.push(done.len());
            }
            Ok(answer?)
        });
        done.push(answer);
    }
    done
}
