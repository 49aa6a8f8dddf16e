//! Carries the messages of a session from one end to the other and counts them.
use recon::{Opener, Refusal, Responder};

/// The messages of one direction.
#[derive(Clone, Copy, Debug, Default, PartialEq, Eq)]
pub struct Traffic {
    pub messages: usize,
    pub bytes: usize,
}

impl Traffic {
    fn count(&mut self, message: &[u8]) {
        self.messages += 1;
        self.bytes += message.len();
    }
}

/// What went over so far. A round is a query and its reply.
#[derive(Clone, Copy, Debug, Default, PartialEq, Eq)]
pub struct Exchanged {
    pub queries: Traffic,
    pub replies: Traffic,
}

/// Hands each query to the responder and each reply to the opener, until the session is done. After each message it
/// calls `watch`.
pub fn exchange(
    opener: &mut Opener<'_>,
    responder: &mut Responder<'_>,
    mut watch: impl FnMut(&Exchanged, &Opener<'_>),
) -> Result<Exchanged, Refusal> {
    let mut exchanged = Exchanged::default();
    while let Some(query) = opener.query() {
        exchanged.queries.count(query);
        watch(&exchanged, opener);
        let reply = responder.answer(query)?;
        exchanged.replies.count(reply);
        watch(&exchanged, opener);
        opener.take(reply)?;
    }
    Ok(exchanged)
}

#[cfg(test)]
mod tests {
    use super::*;
    use recon::{sha256, Cut, Table};

    /// The ids of the records that have these numbers. Their times are the numbers.
    fn ids(numbers: &[u64]) -> Vec<u8> {
        numbers
            .iter()
            .flat_map(|number| sha256(&number.to_be_bytes()))
            .collect()
    }

    /// What went over in the session of the default cut between tables of the records with these numbers.
    fn session(ours: &[u64], theirs: &[u64]) -> Exchanged {
        let (our_ids, their_ids) = (ids(ours), ids(theirs));
        let our_table = Table {
            times: ours,
            ids: &our_ids,
        };
        let their_table = Table {
            times: theirs,
            ids: &their_ids,
        };
        let mut opener = Opener::open(our_table, Cut::default()).unwrap();
        let mut responder = Responder::new(their_table, Cut::default());
        let mut watched = Vec::new();
        let exchanged = exchange(&mut opener, &mut responder, |so_far, _| watched.push(*so_far)).unwrap();
        assert!(opener.is_done());
        assert_eq!(watched.last(), Some(&exchanged));
        assert_eq!(watched.len(), exchanged.queries.messages + exchanged.replies.messages);
        exchanged
    }

    /// So many messages with so many bytes in all.
    fn traffic(messages: usize, bytes: usize) -> Traffic {
        Traffic { messages, bytes }
    }

    #[test]
    fn messages_are_counted_on_either_side() {
        let (queries, replies) = (traffic(1, 5), traffic(1, 5));
        assert_eq!(session(&[], &[]), Exchanged { queries, replies });
        let (queries, replies) = (traffic(1, 5 + 2 * 32), traffic(1, 5 + 32));
        assert_eq!(session(&[1, 2], &[2]), Exchanged { queries, replies });
        let (all, odd): (Vec<u64>, Vec<u64>) = ((0..4000).collect(), (1..4000).step_by(2).collect());
        let exchanged = session(&all, &odd);
        assert_eq!((exchanged.queries.messages, exchanged.replies.messages), (2, 2));
        assert!(exchanged.queries.bytes > 32 * 4000 && exchanged.replies.bytes > 32 * 2000);
    }

    #[test]
    fn a_refused_call_ends_the_exchange() {
        let table = Table { times: &[], ids: &[] };
        let mut opener = Opener::open(table, Cut::default()).unwrap();
        let mut responder = Responder::new(table, Cut { parts: 1, limit: 64 });
        let mut watched = 0;
        let refused = exchange(&mut opener, &mut responder, |_, _| watched += 1);
        assert_eq!(refused, Err(Refusal::CutLimits));
        assert_eq!((watched, opener.is_done()), (1, false));
    }
}
