//! The reference with damage on purpose, for the self-check.
use crate::calls::{Call, Calls, GivenBound, GivenItem, Lent, Outcome, Reference, Refused, RunOutcome, TreeCall};
use crate::calls::{FoldAnswer, FoldCall, FoldLent, FoldOutcome};
use crate::fold_made::FoldMade;
use crate::guard::{touch_beyond, Side};
use crate::input::Input;
use crate::tree::TreeInput;
use crate::within_trials::{rewrite, Short};
use recon::{Committed, Inquiry, Sent, Table};
use reference::Odd;

/// What an undamaged call did, and what was lent to it before.
pub struct Made<'a, 'b> {
    pub call: Call,
    pub lent: &'a mut Lent<'b>,
    pub marks: Vec<u8>,
    pub needed: Vec<u8>,
    pub out: Vec<u8>,
}

impl Made<'_, '_> {
    /// The message that the call writes without a byte limit.
    pub fn whole(&self) -> Vec<u8> {
        let Lent {
            table,
            cut,
            odd,
            message,
            session,
            ..
        } = *self.lent;
        let input = Input::new(self.call, table, cut).by(odd).with_message(message);
        let input = input.with_state(session, &self.marks, &self.needed);
        let out = vec![0; input.most_room()];
        input.with_out(&out).run(&Reference).message().to_vec()
    }

    /// Puts all buffers back.
    pub fn undo(&mut self) {
        self.lent.marks.copy_from_slice(&self.marks);
        self.lent.needed.copy_from_slice(&self.needed);
        self.lent.out.copy_from_slice(&self.out);
    }

    /// Writes another message, if there is room.
    pub fn write(&mut self, sent: &mut Sent, bytes: &[u8]) {
        if bytes.len() <= self.out.len() {
            self.lent.out.copy_from_slice(&self.out);
            self.lent.out[..bytes.len()].copy_from_slice(bytes);
            sent.length = bytes.len();
        }
    }

    /// Accepts after all, and writes nothing.
    pub fn accept(&self, outcome: &mut Outcome) {
        let session = self.lent.session;
        *outcome = Ok(Sent { length: 0, session });
    }

    /// Refuses after all.
    pub fn refuse(&mut self, outcome: &mut Outcome, number: u8) {
        self.undo();
        let session = self.call.beside_refusal(self.lent.session);
        *outcome = Err(Refused { number, session });
    }
}

#[derive(Clone, Copy)]
pub enum Damage {
    /// Changes what a call is lent before it is made.
    Lent(fn(&mut Lent<'_>)),
    /// Spoils what a call did that was not refused.
    Sent(Call, fn(&mut Made<'_, '_>, &mut Sent)),
    /// Spoils what a call by the former rule did that was not refused.
    Former(fn(&mut Made<'_, '_>, &mut Sent)),
    /// Changes a message that its byte limit cut short.
    Short(fn(&mut Short<'_>)),
    /// Spoils what a refused call left.
    Refused(fn(&mut Made<'_, '_>, &mut Refused)),
    /// Tells a refusal by another number.
    Renumber(u8, u8),
    Any(fn(&mut Made<'_, '_>, &mut Outcome)),
    Fingerprint(fn(GivenBound<'_>, GivenBound<'_>, &mut Result<[u8; 16], u8>)),
    Digest(fn(&[u8], &mut [u8; 32])),
    /// Spoils the tree that a build or an append left which was not refused.
    Tree(TreeCall, fn(&TreeInput<'_>, &mut [u8])),
    /// Spoils what a build or an append did, refused or not.
    AnyTree(fn(&TreeInput<'_>, &mut [u8], &mut Result<(), u8>)),
    /// Spoils the label of the run from one place of a tree to below another.
    Run(fn(&[u8], (usize, usize), &mut RunOutcome)),
    /// Changes what an inquiry or a commit is lent before it is made.
    FoldLent(fn(&mut FoldLent<'_>)),
    /// Spoils what an inquiry told that was not refused.
    Inquired(fn(&mut FoldMade<'_, '_>, &mut Inquiry)),
    /// Spoils what a commit left that was not refused.
    Committed(fn(&mut FoldMade<'_, '_>, &mut Committed)),
    /// Spoils what an inquiry or a commit did, refused or not.
    Fold(fn(&mut FoldMade<'_, '_>)),
    /// Reads a byte before or behind the out buffer, the marks of a conversion, the tree of a build or an append, or the
    /// needed buffer of an inquiry or a commit.
    Beyond(Side),
}

/// The reference with this damage.
pub struct Damaged(pub Damage);

impl Damaged {
    /// A build or an append with damage.
    fn tree(&self, table: Table<'_>, item: Option<GivenItem<'_>>, tree: &mut [u8]) -> Result<(), u8> {
        let before = tree.to_vec();
        let input = TreeInput {
            table,
            item,
            tree: &before,
        };
        let mut result = input.make(&Reference, tree);
        match self.0 {
            Damage::Tree(of, spoil) if of == input.call() && result.is_ok() => spoil(&input, tree),
            Damage::AnyTree(spoil) => spoil(&input, tree, &mut result),
            Damage::Beyond(side) => touch_beyond(tree, side),
            _ => {}
        }
        result
    }
}

impl Calls for Damaged {
    fn name(&self) -> &'static str {
        "damaged reference"
    }

    fn run(&self, call: Call, lent: &mut Lent<'_>) -> Outcome {
        let (marks, needed, out) = (lent.marks.to_vec(), lent.needed.to_vec(), lent.out.to_vec());
        if let Damage::Lent(change) = self.0 {
            change(lent);
        }
        let mut outcome = Reference.run(call, lent);
        let mut made = Made {
            call,
            lent,
            marks,
            needed,
            out,
        };
        match (self.0, &mut outcome) {
            (Damage::Sent(of, spoil), Ok(sent)) if of == call => spoil(&mut made, sent),
            (Damage::Former(spoil), Ok(sent)) if made.lent.odd == Odd::ToFirst => spoil(&mut made, sent),
            (Damage::Short(change), Ok(sent)) => rewrite(&mut made, sent, change),
            (Damage::Refused(spoil), Err(refused)) => spoil(&mut made, refused),
            (Damage::Renumber(from, to), Err(refused)) if refused.number == from => refused.number = to,
            (Damage::Any(spoil), outcome) => spoil(&mut made, outcome),
            (Damage::Beyond(side), _) if call == Call::Convert => touch_beyond(made.lent.marks, side),
            (Damage::Beyond(side), _) => touch_beyond(made.lent.out, side),
            _ => {}
        }
        outcome
    }

    fn fingerprint(&self, table: Table<'_>, lower: GivenBound<'_>, upper: GivenBound<'_>) -> Result<[u8; 16], u8> {
        let mut result = Reference.fingerprint(table, lower, upper);
        if let Damage::Fingerprint(spoil) = self.0 {
            spoil(lower, upper, &mut result);
        }
        result
    }

    fn sha256(&self, message: &[u8]) -> [u8; 32] {
        let mut digest = Reference.sha256(message);
        if let Damage::Digest(spoil) = self.0 {
            spoil(message, &mut digest);
        }
        digest
    }

    fn tree_build(&self, table: Table<'_>, tree: &mut [u8]) -> Result<(), u8> {
        self.tree(table, None, tree)
    }

    fn tree_append(&self, table: Table<'_>, item: GivenItem<'_>, tree: &mut [u8]) -> Result<(), u8> {
        self.tree(table, Some(item), tree)
    }

    fn tree_label(&self, tree: &[u8], from: usize, to: usize) -> RunOutcome {
        let mut result = Reference.tree_label(tree, from, to);
        if let Damage::Run(spoil) = self.0 {
            spoil(tree, (from, to), &mut result);
        }
        result
    }

    fn fold(&self, call: FoldCall, lent: &mut FoldLent<'_>) -> FoldOutcome {
        let change = match self.0 {
            Damage::FoldLent(change) => change,
            _ => |_: &mut FoldLent<'_>| {},
        };
        let mut made = FoldMade::new(call, lent, change);
        match (self.0, made.outcome) {
            (Damage::Inquired(spoil), Ok(FoldAnswer::Inquired(mut told))) => {
                spoil(&mut made, &mut told);
                made.outcome = Ok(FoldAnswer::Inquired(told));
            }
            (Damage::Committed(spoil), Ok(FoldAnswer::Committed(mut left))) => {
                spoil(&mut made, &mut left);
                made.outcome = Ok(FoldAnswer::Committed(left));
            }
            (Damage::Fold(spoil), _) => spoil(&mut made),
            (Damage::Renumber(from, to), _) => made.renumber(from, to),
            (Damage::Beyond(side), _) => touch_beyond(made.lent.needed, side),
            _ => {}
        }
        made.outcome
    }
}
