//! A certificate of edges: for each side of each triangle the number of its edge, and the edges in the order of their ends.

use super::checks::{is_no_order, mesh, table_short};
use super::lent::Lent;
use super::wrong::Wrong;
use crate::scene::refusal::*;
use crate::scene::Scene;

/// What is told: 0 where all is well, 1 with the first side that has not its edge, 2 with the first number of the order behind which ends do not rise.
pub type Told = [u64; 2];

pub fn checked(lent: &Lent, wrong: Wrong) -> Result<Told, u64> {
    let edges = lent.edges.len() / 2;
    let short = table_short(lent, wrong) || lent.places.len() < edges;
    if short && wrong != Wrong::TwelveBehindTheMesh {
        return Err(LENT_TOO_SHORT);
    }
    let scene = mesh(lent, wrong)?;
    if short {
        return Err(LENT_TOO_SHORT);
    }
    let another_length = lent.sides.len() != lent.triangles.len() && wrong != Wrong::SidesLengthUnseen;
    if another_length || is_no_order(edges, &lent.order, wrong) {
        return Err(WRONG_ORDER);
    }
    Ok(told(&scene, lent, wrong))
}

fn told(scene: &Scene, lent: &Lent, wrong: Wrong) -> Told {
    let bare = |&side: &usize| is_bare(scene, lent, side, wrong);
    let sides = 0..lent.triangles.len();
    let first_bare = if wrong == Wrong::LastFault { sides.rev().find(bare) } else { sides.clone().find(bare) };
    let ends: Vec<(usize, usize)> = lent.order.iter().filter_map(|&edge| ends_of(scene, edge as usize, wrong)).collect();
    let falls = |two: &[(usize, usize)]| two[1] < two[0] || wrong != Wrong::TwiceUnseen && two[1] == two[0];
    let first_fall = ends.windows(2).position(falls);
    match (first_bare, first_fall) {
        (_, Some(place)) if wrong == Wrong::TwiceBeforeBare => [2, place as u64],
        (Some(side), _) => [1, side as u64],
        (None, Some(place)) => [2, place as u64],
        (None, None) => [0, 0],
    }
}

/// From a corner to the next around its triangle; the edge has these two ends, in either order.
fn is_bare(scene: &Scene, lent: &Lent, side: usize, wrong: Wrong) -> bool {
    let corners = &lent.triangles;
    let next = match side % 3 {
        2 if wrong == Wrong::LastSideAhead => (side + 1) % corners.len(),
        2 => side - 2,
        _ => side + 1,
    };
    let wanted = [corners[side] as usize, corners[next] as usize];
    let given = lent.sides.get(side).and_then(|&edge| scene.edges.get(edge as usize));
    let turned = [wanted[1], wanted[0]];
    !given.is_some_and(|&ends| ends == wanted || wrong != Wrong::SidesOneWay && ends == turned)
}

/// The lower end first.
fn ends_of(scene: &Scene, edge: usize, wrong: Wrong) -> Option<(usize, usize)> {
    let &[a, b] = scene.edges.get(edge)?;
    Some(if wrong == Wrong::EndsAsWritten { (a, b) } else { (a.min(b), a.max(b)) })
}
