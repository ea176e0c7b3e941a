//! What is said before a report, on standard error: what its lines cannot show, and whoever reads them should know.

use crate::mesh::Mesh;
use crate::seams;
use crate::words::{Command, Options};

/// A move by so many edge lengths in one step is told to be far. Cloth that falls freely moves by a few from frame to frame, and all of it alike; over
/// more than this it turns and folds on the way, and a straight line from start to end is no longer the way that it took.
pub const FAR: f64 = 10.0;

/// What is to be known of a mesh that nothing of its report shows, a line each; none of a mesh that is sewn, moves, and moves little.
pub fn of_mesh(mesh: &Mesh, sewn: bool) -> Vec<String> {
    [nothing(mesh), still(mesh), unsewn(mesh, sewn), move_of(mesh)].into_iter().flatten().collect()
}

/// The same of one frame, which is a mesh at rest.
pub fn of_frame(mesh: &Mesh, sewn: bool) -> Vec<String> {
    [nothing(mesh), unsewn(mesh, sewn)].into_iter().flatten().collect()
}

/// No report of nothing passes for one of cloth that is clean.
fn nothing(mesh: &Mesh) -> Option<String> {
    let words = "there are no faces, and so no pair: this report speaks of no cloth; export the faces too";
    mesh.triangles.is_empty().then(|| words.to_string())
}

fn still(mesh: &Mesh) -> Option<String> {
    let words = "the end is the start, nothing moves: this report speaks of no drape; name two frames";
    let rests = |position: &[i32; 6]| position[..3] == position[3..];
    (!mesh.positions.is_empty() && mesh.positions.iter().all(rests)).then(|| words.to_string())
}

/// How many vertices `--seams` would take for another.
pub fn unsewn(mesh: &Mesh, sewn: bool) -> Option<String> {
    let lowest = if sewn { Vec::new() } else { seams::by_position(&mesh.positions) };
    let count = lowest.iter().zip(0..).filter(|&(&lowest, vertex)| lowest != vertex).count();
    let words = "vertices stand in one place with another, at the start and at the end, as along a seam: where cloth is sewn there, its faces are judged \
                 against each other; --seams takes such vertices for one";
    (count > 0).then(|| format!("{count} {words}"))
}

/// How far the farthest vertex moves, in lengths of the edge in the middle of all by length, at the start.
fn move_of(mesh: &Mesh) -> Option<String> {
    let (vertex, lengths) = farthest_move(mesh)?;
    let mut words = format!("the farthest move is {lengths:.2} edge lengths, of vertex {vertex}");
    if lengths > FAR {
        words += TOO_FAR;
    }
    Some(words)
}

/// Behind a move that is told.
pub const TOO_FAR: &str = ": frames so far apart give contacts that no cloth made, since each vertex goes straight from start to end; take frames between";

/// The vertex that moves farthest, and how far, in lengths of the edge in the middle of all.
pub fn farthest_move(mesh: &Mesh) -> Option<(usize, f64)> {
    let (vertex, moved) = farthest(mesh)?;
    Some((vertex, moved / middle_edge(mesh)?))
}

fn farthest(mesh: &Mesh) -> Option<(usize, f64)> {
    let moved = |[a, b, c, d, e, f]: [i32; 6]| length([[a, b, c], [d, e, f]]);
    let moves = mesh.positions.iter().enumerate().map(|(vertex, &position)| (vertex, moved(position)));
    // of those that move equally far, the first
    moves.reduce(|most, next| if next.1 > most.1 { next } else { most }).filter(|(_, moved)| *moved > 0.0)
}

/// Nothing where there is no edge, or where more than half of them have no length.
fn middle_edge(mesh: &Mesh) -> Option<f64> {
    let place = |vertex: u32| {
        let [x, y, z, ..] = mesh.positions[vertex as usize];
        [x, y, z]
    };
    let mut lengths: Vec<f64> = mesh.edges.iter().map(|ends| length(ends.map(place))).collect();
    let middle = lengths.len() / 2;
    if lengths.is_empty() {
        return None;
    }
    let (_, length, _) = lengths.select_nth_unstable_by(middle, f64::total_cmp);
    Some(*length).filter(|length| *length > 0.0)
}

fn length([from, to]: [[i32; 3]; 2]) -> f64 {
    let square = |(a, b): (i32, i32)| (f64::from(b) - f64::from(a)).powi(2);
    from.into_iter().zip(to).map(square).sum::<f64>().sqrt()
}

/// The command that asks for the same once more on the same grid, where another run might choose another one.
pub fn again(command: &Command, options: &Options, step: f64) -> String {
    let mut words = vec!["garment".to_string()];
    words.extend(command.name().map(str::to_string));
    if let Command::Rows { share, .. } = command {
        words.push(format!("{}/{}", share.number, share.of));
    }
    words.push(format!("--step {step}"));
    words.extend(options.kept.iter().cloned());
    let places = command.places();
    // files of a body go up to the next option
    let parted = matches!(command, Command::Series { .. }) && !options.body_files.is_empty();
    let parted = parted || places.iter().any(|name| name.len() > 1 && name.starts_with('-'));
    words.extend(parted.then(|| "--".to_string()));
    words.extend(places.into_iter().map(quoted));
    words.join(" ")
}

/// A name as a shell takes it.
pub fn quoted(name: &str) -> String {
    let plain = |byte: u8| byte.is_ascii_alphanumeric() || b"-_./+:@%,".contains(&byte);
    if !name.is_empty() && name.bytes().all(plain) {
        name.to_string()
    } else {
        format!("'{}'", name.replace('\'', "'\\''"))
    }
}
