//! Which names each face has.

use garment::names::Names;
use garment::obj::read;

fn names_of(text: &[u8]) -> Vec<Vec<String>> {
    let obj = read("m.obj", text).expect("it is read");
    obj.names.of_triangles.iter().map(|&set| all(&obj.names, set)).collect()
}

fn all(names: &Names, set: u32) -> Vec<String> {
    names.of_set(set).map(str::to_string).collect()
}

/// The names of the faces of a text whose vertices stand above.
fn named(lines: &[u8]) -> Vec<Vec<String>> {
    names_of(&[b"v 0 0 0\nv 1 0 0\nv 0 1 0\nv 1 1 0\n".as_slice(), lines].concat())
}

#[test]
fn as_files_have_them() {
    // above the first o or g a face has no name; an o goes on, and ends the groups above it; a g goes until the next
    assert_eq!(
        named(b"f 1 2 3\no a\nf 1 2 3\ng b c\nf 1 2 3\nf 1 2 4\no d\nf 1 2 3\ng c\nf 1 2 3\ng\nf 1 2 3\no\nf 1 2 3\n"),
        [&[][..], &["a"], &["a", "b", "c"], &["a", "b", "c"], &["d"], &["c", "d"], &["d"], &[]]
    );
    // groups without an object; a name that is an object's and a group's is one; a group twice is once; both triangles of a quad
    assert_eq!(named(b"g b a b\nf 1 2 3\no a\ng a\nf 1 2 4 3\n"), [&["b", "a"][..], &["a"], &["a"]]);
    // an object's name has its blanks and its number sign; a comment behind groups is none of them
    assert_eq!(named(b"o Left \t sleeve #2 \ng x # y\nf 1 2 3\n"), [["Left sleeve #2", "x"]]);
    assert_eq!(named(b"o na\xefve\ng \xc3\xa9\nf 1 2 3\n"), [["na\\xefve", "\u{e9}"]]);
    assert_eq!(named(b"o c:\\\ng d\\\nf 1 2 3\n"), [["c:\\", "d\\"]]);
    // other lines begin nothing
    assert_eq!(named(b"o a\nusemtl b\ns off\nmg 1 2\nf 1 2 3\n"), [["a"]]);
}

/// Names of the body's file stand behind the cloth's, each with `body`; a name of both files is one.
#[test]
fn of_a_body_behind() {
    let cloth = b"v 0 0 0\nv 1 0 0\nv 0 1 0\no a\nf 1 2 3\n".as_slice();
    let mut obj = read("m.obj", cloth).expect("it is read");
    let body = b"v 0 0 0\nv 1 0 0\nv 0 1 0\nv 2 2 2\nf 4 2 3\no skin\nf 1 2 3\ng a\nf 1 2 4\n".as_slice();
    obj.join_body("b.obj", read("b.obj", body).expect("it is read")).expect("it is joined");
    assert_eq!(obj.triangles, [[0, 1, 2], [6, 4, 5], [3, 4, 5], [3, 4, 6]]);
    assert_eq!((obj.places.len(), &obj.lines[..]), (7, &[5, 5, 7, 9][..]));
    let names: Vec<Vec<String>> = obj.names.of_triangles.iter().map(|&set| all(&obj.names, set)).collect();
    assert_eq!(names, [&["a"][..], &["body"], &["body", "skin"], &["a", "body", "skin"]]);
}
