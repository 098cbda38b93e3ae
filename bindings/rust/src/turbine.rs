//! A validator's view of the Turbine tree: [`TurbineTree`].

use crate::{Refusal, Stake, ValidatorIndex, Words, buffers, sys};

/// The fanout of the original's Turbine tree.
pub const DEFAULT_FANOUT: usize = 200;

/// The largest fanout.
pub const MAX_FANOUT: usize = 4_096;

/// In the library's answer, the parent of the root.
const NO_PARENT: u64 = u64::MAX;

/// What one validator sees of a Turbine tree.
///
/// The tree is laid over a [`WeightedShuffle`](crate::WeightedShuffle) of the stakes: below each
/// validator stand up to `fanout` others.
///
/// ```
/// use valwydr::{Stake, TurbineTree, ValidatorIndex, Words};
///
/// // The order is 2, 0, 1.
/// let stakes = [2, 0, 3].map(Stake::new);
/// let mut words = Words::new(&[4, 1, 0]);
/// let (fanout, own_id) = (2, ValidatorIndex::new(2));
/// let tree = TurbineTree::new(&stakes, fanout, own_id, &mut words)?;
/// assert_eq!(tree.get_root(), own_id);
/// assert_eq!(tree.get_parent(), None);
/// assert_eq!(tree.get_children(), [0, 1].map(ValidatorIndex::new));
/// # Ok::<(), valwydr::Refusal>(())
/// ```
#[derive(Clone, Debug, PartialEq, Eq)]
pub struct TurbineTree {
    root: ValidatorIndex,
    parent: Option<ValidatorIndex>,
    children: Vec<ValidatorIndex>,
}

/// A [`TurbineTree`] with all that the call answers.
///
/// ```
/// use valwydr::{Stake, TurbineTree, ValidatorIndex, Words};
///
/// let stakes = [2, 0, 3].map(Stake::new);
/// let own_id = ValidatorIndex::new(1);
/// let view = TurbineTree::view(&stakes, 2, own_id, &mut Words::new(&[4, 1, 0]))?;
/// assert_eq!(view.order, [2, 0, 1].map(ValidatorIndex::new));
/// assert_eq!(view.tree.get_parent(), Some(view.order[0]));
/// assert_eq!(view.words_read, 3);
/// # Ok::<(), valwydr::Refusal>(())
/// ```
#[non_exhaustive]
#[derive(Clone, Debug, PartialEq, Eq)]
pub struct View {
    /// The tree.
    pub tree: TurbineTree,
    /// All validators in the order over which the tree is laid, the root first.
    pub order: Vec<ValidatorIndex>,
    /// How many words the call read.
    pub words_read: usize,
}

impl TurbineTree {
    /// What the validator `own_id` sees.
    ///
    /// # Errors
    ///
    /// [`ListLength`](Refusal::ListLength), [`Fanout`](Refusal::Fanout),
    /// [`NotBelow`](Refusal::NotBelow), [`NoWordLeft`](Refusal::NoWordLeft).
    pub fn new(
        stakes: &[Stake],
        fanout: usize,
        own_id: ValidatorIndex,
        words: &mut Words<'_>,
    ) -> Result<Self, Refusal> {
        Self::view(stakes, fanout, own_id, words).map(|view| view.tree)
    }

    /// The same with the whole order and the words read.
    ///
    /// # Errors
    ///
    /// Those of [`new`](Self::new).
    pub fn view(
        stakes: &[Stake],
        fanout: usize,
        own_id: ValidatorIndex,
        words: &mut Words<'_>,
    ) -> Result<View, Refusal> {
        let mut order = buffers::validators(stakes.len());
        let mut nodes = buffers::nodes(stakes.len());
        let mut children = buffers::validators(stakes.len().min(fanout));
        let [root, parent, number, words_read] = sys::turbine_tree_new(
            stakes,
            (fanout, own_id),
            words,
            &mut order,
            &mut nodes,
            &mut children,
        )?;
        children.truncate(number as usize);
        children.shrink_to_fit();
        let tree = Self {
            root: ValidatorIndex::new(root),
            parent: (parent != NO_PARENT).then_some(ValidatorIndex::new(parent)),
            children,
        };
        Ok(View {
            tree,
            order,
            words_read: words.advance(words_read),
        })
    }

    /// The root of the tree.
    pub const fn get_root(&self) -> ValidatorIndex {
        self.root
    }

    /// The validator above this one; `None` for the root.
    pub const fn get_parent(&self) -> Option<ValidatorIndex> {
        self.parent
    }

    /// The validators below this one.
    pub fn get_children(&self) -> &[ValidatorIndex] {
        &self.children
    }
}
