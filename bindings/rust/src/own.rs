//! A list of one's own: a program that finds its pairs itself asks for all of them in one call, which checks the scene once.

use crate::answers::{heard, settled};
use crate::scenes::ask;
use crate::{raw, Contact, Pair, Refusal, Scene, Settled, CONTACT_LENGTH};
use std::error::Error;
use std::fmt::{self, Display, Formatter};

/// Why no pair of a list was answered.
#[derive(Clone, Copy, Debug, PartialEq, Eq, Hash)]
#[non_exhaustive]
pub enum OwnRefusal {
    /// 1, 2, 3, 15 or 4; for contacts 16 too.
    Scene(Refusal),
    /// 5 or 6 of the first pair at fault: its number in the list, counted from 1.
    Entry {
        /// Why.
        refusal: Refusal,
        /// Which.
        number: usize,
    },
    /// 7, with the count of pairs that need room.
    NoRoom {
        /// That count.
        needed: usize,
    },
}

impl OwnRefusal {
    /// The refusal alone.
    pub fn refusal(self) -> Refusal {
        match self {
            OwnRefusal::Scene(refusal) | OwnRefusal::Entry { refusal, .. } => refusal,
            OwnRefusal::NoRoom { .. } => Refusal::NoRoom,
        }
    }

    fn heard((refusal, carried): (Refusal, usize)) -> OwnRefusal {
        match refusal {
            Refusal::NotThere | Refusal::SharedVertex => OwnRefusal::Entry { refusal, number: carried },
            Refusal::NoRoom => OwnRefusal::NoRoom { needed: carried },
            refusal => OwnRefusal::Scene(refusal),
        }
    }
}

impl Display for OwnRefusal {
    fn fmt(&self, f: &mut Formatter) -> fmt::Result {
        match self {
            OwnRefusal::Scene(refusal) => refusal.fmt(f),
            OwnRefusal::Entry { refusal, number } => write!(f, "pair {number} of the list: {refusal}"),
            OwnRefusal::NoRoom { needed } => write!(f, "{}, {needed} needed", Refusal::NoRoom),
        }
    }
}

impl Error for OwnRefusal {}

/// The number of no pair, for a place that no scene has.
const NO_PAIR: u32 = u32::MAX;

fn entries(pairs: &[Pair]) -> Vec<u32> {
    let fits = |pair: &Pair| pair.first < 1_024 && pair.second < 1_024;
    pairs.iter().map(|pair| if fits(pair) { pair.entry() } else { NO_PAIR }).collect()
}

/// Pairs by the thousand, listed or not. Nothing is written where one is at fault.
impl Scene<'_> {
    /// The word of each entry in front of `words`: `words[i]` is 0, 1, 3 or 4, for hit, miss, touch or apart. Returns the count of
    /// entries. The rest of `words` is unchanged, and all of it after a refusal.
    pub fn settle_list(&self, list: &[u32], words: &mut [u8]) -> Result<usize, OwnRefusal> {
        let (l, w) = ((list.as_ptr(), list.len()), (words.as_mut_ptr(), words.len()));
        heard(ask!(self, makhnodri_settle_list_slices, l.0, l.1, w.0, w.1)).map_err(OwnRefusal::heard)
    }

    /// The same, and of each entry that is hit piece, k and three shares: those of entry i begin at `contacts[5 * i]`. The numbers of
    /// other entries stay as they were.
    pub fn contact_list(&self, list: &[u32], words: &mut [u8], contacts: &mut [u32]) -> Result<usize, OwnRefusal> {
        let (l, w, c) = ((list.as_ptr(), list.len()), (words.as_mut_ptr(), words.len()), (contacts.as_mut_ptr(), contacts.len()));
        heard(ask!(self, makhnodri_contact_list_slices, l.0, l.1, w.0, w.1, c.0, c.1)).map_err(OwnRefusal::heard)
    }

    /// The words of these pairs, in their order.
    ///
    /// ```
    /// use makhnodri::{Kind, Pair, Scene, Settled};
    ///
    /// let positions = [0, 0, 0, 0, 0, 0, 4, 0, 0, 4, 0, 0, 0, 4, 0, 0, 4, 0, 1, 1, 1, 1, 1, -3];
    /// let scene = Scene::new(&positions, &[], &[0, 1, 2]);
    /// let pairs = [Pair { kind: Kind::PointTriangle, first: 3, second: 0 }; 2];
    /// assert_eq!(scene.settle_pairs(&pairs).unwrap().collect::<Vec<_>>(), [Settled::Hit, Settled::Hit]);
    /// ```
    pub fn settle_pairs(&self, pairs: &[Pair]) -> Result<impl Iterator<Item = Settled>, OwnRefusal> {
        let mut words = vec![0; pairs.len()];
        self.settle_list(&entries(pairs), &mut words)?;
        Ok(words.into_iter().map(|word| settled(word as usize)))
    }

    /// The contacts of these pairs, in their order.
    pub fn contact_pairs<'a>(&self, pairs: &'a [Pair]) -> Result<impl Iterator<Item = Contact> + 'a, OwnRefusal> {
        let (mut words, mut contacts) = (vec![0; pairs.len()], vec![0; CONTACT_LENGTH * pairs.len()]);
        self.contact_list(&entries(pairs), &mut words, &mut contacts)?;
        let one = move |(place, word): (usize, u8)| {
            let row = contacts[CONTACT_LENGTH * place..][..CONTACT_LENGTH].try_into().expect("five numbers");
            Contact::heard(pairs[place].kind, settled(word as usize), row)
        };
        Ok(words.into_iter().enumerate().map(one))
    }
}
