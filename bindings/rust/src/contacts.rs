//! When and where a hit pair touched.

use crate::answers::{heard, settled};
use crate::scenes::{ask, bare, list_refusal};
use crate::{raw, Kind, ListRefusal, Pair, Refusal, Scene, Settled, CONTACT_LENGTH, CONTACT_UNIT};

/// The word of a pair; a hit carries the time and the place, any other word nothing.
///
/// Time and shares are given twice: as whole 2^20ths, of which [`CONTACT_UNIT`] are 1, and as the `f64` that such a number is, which loses
/// nothing. Each is cut and not rounded: at most the exact value, and short of it by less than one 2^20th. The piece is the hit piece with the
/// smallest `k`, on a tie the lowest.
#[derive(Clone, Copy, Debug, PartialEq)]
#[non_exhaustive]
pub enum Contact {
    /// Of a point and a triangle: the shares of the corners with the lowest, middle and highest vertex number.
    PointHit {
        /// The hit piece, 0, 1 or 2.
        piece: usize,
        /// The time, in 2^20ths.
        k: u32,
        /// The three shares, in 2^20ths.
        shares: [u32; 3],
        /// `k` as a part of 1: 0 is the start, 1 the end.
        time: f64,
        /// The share of the lowest corner.
        low: f64,
        /// The share of the middle corner.
        middle: f64,
        /// The share of the highest corner.
        high: f64,
    },
    /// Of two edges: the share of each at its higher-numbered end, that of the edge with the lower place first.
    EdgeHit {
        /// The hit piece, 0 to 3.
        piece: usize,
        /// The time, in 2^20ths.
        k: u32,
        /// The two shares, in 2^20ths.
        shares: [u32; 2],
        /// `k` as a part of 1: 0 is the start, 1 the end.
        time: f64,
        /// The share of the edge with the lower place.
        first: f64,
        /// The share of the edge with the higher place.
        second: f64,
    },
    /// As [`Settled::Miss`].
    Miss,
    /// As [`Settled::Touch`].
    Touch,
    /// As [`Settled::Apart`].
    Apart,
}

/// A number of 2^20ths as the `f64` that is handed out.
fn part(number: u32) -> f64 {
    number as f64 / CONTACT_UNIT as f64
}

impl Contact {
    /// The word, and on a hit the five numbers: piece, k and shares.
    pub(crate) fn heard(kind: Kind, word: Settled, row: [u32; CONTACT_LENGTH]) -> Contact {
        let [piece, k, one, two, three] = row;
        let (piece, time) = (piece as usize, part(k));
        match (word, kind) {
            (Settled::Hit, Kind::PointTriangle) => {
                let [low, middle, high] = [one, two, three].map(part);
                Contact::PointHit { piece, k, shares: [one, two, three], time, low, middle, high }
            }
            (Settled::Hit, Kind::EdgeEdge) => {
                let [first, second] = [one, two].map(part);
                Contact::EdgeHit { piece, k, shares: [one, two], time, first, second }
            }
            (Settled::Miss, _) => Contact::Miss,
            (Settled::Touch, _) => Contact::Touch,
            (Settled::Apart, _) => Contact::Apart,
        }
    }

    /// The word alone.
    pub fn word(self) -> Settled {
        match self {
            Contact::PointHit { .. } | Contact::EdgeHit { .. } => Settled::Hit,
            Contact::Miss => Settled::Miss,
            Contact::Touch => Settled::Touch,
            Contact::Apart => Settled::Apart,
        }
    }

    /// When it touched: 0 is the start, 1 the end.
    pub fn time(self) -> Option<f64> {
        match self {
            Contact::PointHit { time, .. } | Contact::EdgeHit { time, .. } => Some(time),
            _ => None,
        }
    }
}

/// Contacts, of pairs that are listed or not. Beside what a verdict is refused for, [`Refusal::BeyondOldRange`], after all others but
/// [`Refusal::NoRoom`], for a scene of which any coordinate is beyond [`CONTACT_LIMIT`](crate::CONTACT_LIMIT) in size.
impl Scene<'_> {
    /// Of a vertex and a triangle.
    pub fn contact_pt(&self, vertex: usize, triangle: usize) -> Result<Contact, Refusal> {
        let mut row = [0; CONTACT_LENGTH];
        let word = heard(ask!(self, makhnodri_contact_pt_slices, vertex, triangle, row.as_mut_ptr())).map_err(bare)?;
        Ok(Contact::heard(Kind::PointTriangle, settled(word), row))
    }

    /// Of two edges, which may be asked for in either order.
    pub fn contact_ee(&self, first: usize, second: usize) -> Result<Contact, Refusal> {
        let mut row = [0; CONTACT_LENGTH];
        let word = heard(ask!(self, makhnodri_contact_ee_slices, first, second, row.as_mut_ptr())).map_err(bare)?;
        Ok(Contact::heard(Kind::EdgeEdge, settled(word), row))
    }

    /// The pair of this kind.
    pub fn contact_pair(&self, kind: Kind, first: usize, second: usize) -> Result<Contact, Refusal> {
        match kind {
            Kind::PointTriangle => self.contact_pt(first, second),
            Kind::EdgeEdge => self.contact_ee(first, second),
        }
    }

    /// Makes the list and settles it, as `settle_scene` does; and beside it, of each entry that is hit, piece, k and three shares: those of entry
    /// i begin at `contacts[5 * i]`, and the third share of two edges is 0. The numbers of other entries stay as they were.
    pub fn contact_scene(&self, list: &mut [u32], words: &mut [u8], contacts: &mut [u32]) -> Result<usize, ListRefusal> {
        let (l, w, c) =
            ((list.as_mut_ptr(), list.len()), (words.as_mut_ptr(), words.len()), (contacts.as_mut_ptr(), contacts.len()));
        heard(ask!(self, makhnodri_contact_scene_slices, l.0, l.1, w.0, w.1, c.0, c.1)).map_err(list_refusal)
    }

    /// The list with the contact of each pair, with room of its own.
    pub fn contacts(&self) -> Result<Vec<(Pair, Contact)>, Refusal> {
        let count = self.count_pairs()?.count;
        let (mut list, mut words) = (vec![0; count], vec![0; count]);
        let mut contacts = vec![0; CONTACT_LENGTH * count];
        self.contact_scene(&mut list, &mut words, &mut contacts).map_err(ListRefusal::refusal)?;
        let rows = contacts.chunks_exact(CONTACT_LENGTH).map(|row| row.try_into().expect("five numbers"));
        let pairs = list.into_iter().map(Pair::of_entry);
        let heard = |((pair, word), row): ((Pair, u8), _)| (pair, Contact::heard(pair.kind, settled(word as usize), row));
        Ok(pairs.zip(words).zip(rows).map(heard).collect())
    }

    /// Where the pair touched, in the mesh's units, from the numbers that its contact carries; nothing where it carries none, or is about parts
    /// that are not there.
    ///
    /// Of a point and a triangle it is where the point stands at the time `k`. Of two edges it is the place of the first edge, the one with the
    /// lower place, that its share and `k` have in the piece. That place is worked out without any rounding. It is not the exact place of the
    /// contact, since time and share were cut: on each axis it is off by less than a 2^20th of the way that the point makes on that axis, which
    /// is under half a unit. Of two edges it is off by less than a 2^20th of a way and a length together, which is under one unit: in pieces 0
    /// and 1 the edge's length at the start and its higher end's way, in pieces 2 and 3 its lower end's way and the edge's length at the end.
    ///
    /// ```
    /// use makhnodri::{Pair, Kind, Scene};
    ///
    /// let positions = [0, 0, 0, 0, 0, 0, 4, 0, 0, 4, 0, 0, 0, 4, 0, 0, 4, 0, 1, 1, 1, 1, 1, -3];
    /// let scene = Scene::new(&positions, &[], &[0, 1, 2]);
    /// let contact = scene.contact_pt(3, 0).unwrap();
    /// assert_eq!(contact.time(), Some(0.25));
    /// let pair = Pair { kind: Kind::PointTriangle, first: 3, second: 0 };
    /// assert_eq!(scene.contact_point(pair, contact), Some([1.0, 1.0, 0.0]));
    /// ```
    pub fn contact_point(&self, pair: Pair, contact: Contact) -> Option<[f64; 3]> {
        let unit = CONTACT_UNIT as i64;
        let weights = match contact {
            Contact::PointHit { k, .. } => {
                let k = k as i64;
                vec![(pair.first, [unit - k, k])]
            }
            Contact::EdgeHit { piece, k, shares, .. } => {
                let [low, high] = self.ends(pair.first.min(pair.second))?;
                let (k, share) = (k as i64, shares[0] as i64);
                // pieces 0 and 1 have the first edge as low high high', pieces 2 and 3 as low low' high'
                match piece {
                    0 | 1 => vec![(low, [unit - share, 0]), (high, [share - k, k])],
                    _ => vec![(low, [unit - k, k - share]), (high, [0, share])],
                }
            }
            _ => return None,
        };
        let mut place = [0.0; 3];
        for (axis, coordinate) in place.iter_mut().enumerate() {
            let mut sum = 0;
            for &(vertex, [start, end]) in &weights {
                let at = |offset: usize| self.positions.get(6 * vertex + offset).map(|&n| n as i64);
                sum += start * at(axis)? + end * at(axis + 3)?;
            }
            // under 2^40 in size, so that neither step rounds
            *coordinate = sum as f64 / unit as f64;
        }
        Some(place)
    }

    /// The two ends of an edge, the lower first by the vertices stood for.
    fn ends(&self, edge: usize) -> Option<[usize; 2]> {
        let ends = self.edges.get(2 * edge..2 * edge + 2)?;
        let mut ends = [ends[0], ends[1]].map(usize::from);
        ends.sort_by_key(|&vertex| self.stands_for(vertex));
        Some(ends)
    }
}
