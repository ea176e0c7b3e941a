//! OBJ files as exporters write them, and each thing that cannot be read, by its line.

use compare::numbers::random::Random;
use garment::obj::{in_pieces, read, Noted, Obj};
use garment::pairs::{Kind, Pair};
use garment::report::{Form, WORDS};
use garment_check::former;
use garment_check::ways::{mesh_of, objs_of, report};
use makhnodri::Settled;

fn obj(text: &[u8]) -> Obj {
    read("m.obj", text).unwrap_or_else(|fault| panic!("{}: {fault}", text.escape_ascii()))
}

const THREE: &str = "v 0 0 0\nv 1 0 0\nv 0 1 0\n";

#[test]
fn as_exporters_write() {
    let same: [&[u8]; 23] = [
        b"v 0 0 0\nv 1 0 0\nv 0 1 0\nf 1 2 3\n",
        // no line end at the end; CR LF; CR alone
        b"v 0 0 0\nv 1 0 0\nv 0 1 0\nf 1 2 3",
        b"v 0 0 0\r\nv 1 0 0\r\nv 0 1 0\r\nf 1 2 3\r\n",
        b"v 0 0 0\rv 1 0 0\rv 0 1 0\rf 1 2 3\r",
        // decimals, exponents, signs
        b"v 0.000000 -0.0 +0\nv 1.0 0. .0\nv 0e0 1E+00 0e-5\nf 1 2 3\n",
        b"v 0 0 0\nv 10e-1 0 0\nv 0 1000000e-6 0\nf 1 2 3\n",
        // texture and normal
        b"v 0 0 0\nv 1 0 0\nv 0 1 0\nvt 0 0\nvn 0 0 1\nf 1/1/1 2/1/1 3/1/1\n",
        b"v 0 0 0\nv 1 0 0\nv 0 1 0\nvn 0 0 1\nf 1//1 2//1 3//1\n",
        b"v 0 0 0\nv 1 0 0\nv 0 1 0\nvt 0 0\nf 1/1 2/1 3/1\n",
        b"v 0 0 0\nv 1 0 0\nv 0 1 0\nvt 0 0\nf 1/ 2/ 3/\n",
        b"v 0 0 0\nv 1 0 0\nv 0 1 0\nvt 0 0\nvn 0 0 1\nf 1/-1/-1 2/-1/-1 3/-1/-1\n",
        // counted backwards
        b"v 0 0 0\nv 1 0 0\nv 0 1 0\nf -3 -2 -1\n",
        b"v 0 0 0\nv 1 0 0\nv 0 1 0\nvn 0 0 1\nf -3//-1 -2//-1 -1//-1\n",
        // a weight, a colour, both
        b"v 0 0 0 1\nv 1 0 0 1.0\nv 0 1 0 1\nf 1 2 3\n",
        b"v 0 0 0 .5 .5 .5\nv 1 0 0 1 0 0\nv 0 1 0 0 0 1\nf 1 2 3\n",
        b"v 0 0 0 1 .5 .5 .5\nv 1 0 0 1 0 0 0\nv 0 1 0 1 0 0 1\nf 1 2 3\n",
        // comments, names, materials, groups, smoothing, empty lines, other white space
        b"# made by\n\nmtllib a b.mtl\no Cloth.001\ng a b\nusemtl None\ns off\nv 0 0 0\nv 1 0 0\nv 0 1 0 # last\ns 1\nf 1 2 3\n",
        b"v\t0\t0  0\n  v 1 0 0  \nv 0 1 0\n\t\nf  1\t2  3 \n",
        b"\xef\xbb\xbfv 0 0 0\nv 1 0 0\nv 0 1 0\nf 1 2 3\n",
        b"v 0 0 0\nv 1 0 0\nv 0 1 0\no na\xefve\ng \xff\nf 1 2 3\n",
        // a line that goes on
        b"v 0 \\\n0 0\nv 1 0 0\nv 0 1 0\nf 1 2 \\\r\n3\n",
        b"v 0 0 0 # c:\\\nv 1 0 0\nv 0 1 0\nf 1 2 3 # \\\n",
        // a face above its vertices, and names that end in a backslash
        b"f 1 2 3\n# c:\\cloth\\\nusemtl c:\\\nv 0 0 0\nv 1 0 0\nv 0 1 0\n",
    ];
    for text in same {
        let obj = obj(text);
        assert_eq!(obj.places, [[0.0, 0.0, 0.0], [1.0, 0.0, 0.0], [0.0, 1.0, 0.0]], "{}", text.escape_ascii());
        assert_eq!(obj.triangles, [[0, 1, 2]], "{}", text.escape_ascii());
        assert_eq!(obj.noted, Noted::default());
    }
}

#[test]
fn nothing_is_a_mesh() {
    assert_eq!(obj(b""), Obj::default());
    assert_eq!(obj(b"# nothing\n").triangles, [[0; 3]; 0]);
}

/// A quad is cut from its lowest corner, wherever it begins to be written and whichever way round; and so is a larger face.
#[test]
fn faces_are_cut_from_their_lowest_corner() {
    let vertices = "v 0 0 0\n".repeat(9);
    let cut = |face: &str| obj(format!("{vertices}{face}\n").as_bytes()).triangles;
    for quad in ["f 3 7 5 9", "f 7 5 9 3", "f 5 9 3 7", "f 9 3 7 5"] {
        assert_eq!(cut(quad), [[2, 6, 4], [2, 4, 8]], "{quad}");
    }
    assert_eq!(cut("f 9 5 7 3"), [[2, 8, 4], [2, 4, 6]]);
    assert_eq!(cut("f 4 2 9 1 8"), [[0, 7, 3], [0, 3, 1], [0, 1, 8]]);
    // a triangle stays as it is written
    assert_eq!(cut("f 5 3 4"), [[4, 2, 3]]);
    let noted = obj(format!("{vertices}f 1 2 3 4\nf 1 2 3 4 5\nf 1 2 3\nl 1 2\np 1\n").as_bytes()).noted;
    assert_eq!(noted, Noted { quads: 1, larger: 1, loose: 2 });
}

#[test]
fn what_cannot_be_read_is_told_by_line() {
    let faults: [(&str, u64, &str); 31] = [
        ("v 0 0\n", 1, "a vertex has 3 numbers, or 4, 6 or 7 with a weight and a colour; here are 2"),
        ("v\n", 1, "here are 0"),
        ("v 0 0 0 1 1\n", 1, "here are 5"),
        ("v 0 0 0 1 1 1 1 1\n", 1, "here are 8"),
        ("# a\nv 0 x 0\n", 2, "\"x\" is no number"),
        ("v 0 0 0 red\n", 1, "\"red\" is no number"),
        ("v 0,5 0 0\n", 1, "\"0,5\" is no number: a decimal point is wanted, not a comma"),
        ("v 0 nan 0\n", 1, "\"nan\" is not a finite number"),
        ("v 0 0 -inf\n", 1, "\"-inf\" is not a finite number"),
        ("v 0 0 1e999\n", 1, "\"1e999\" is not a finite number"),
        ("v 0 0 1.#IND\n", 1, "\"1.#IND\" is no number"),
        ("v 0x10 0 0\n", 1, "\"0x10\" is no number"),
        ("v 0 0 0\r\nv 0 0 0\r\nv 0 0 z\r\n", 3, "\"z\" is no number"),
        ("v 0 \\\n0 0\nv a 0 0\n", 3, "\"a\" is no number"),
        ("v 0 \\\n0 \\\nb\n", 1, "\"b\" is no number"),
        ("f 1 2\n", 1, "a face has three corners or more; here are 2"),
        ("f\n", 1, "here are 0"),
        ("f 1 2 a\n", 1, "\"a\" is no corner of a face"),
        ("f 1 2 3.0\n", 1, "\"3.0\" is no corner of a face"),
        ("f 1 2 /3\n", 1, "\"/3\" is no corner of a face"),
        ("f 1 2 3/a\n", 1, "\"3/a\" is no corner of a face"),
        ("f 1 2 3/1/1/1\n", 1, "\"3/1/1/1\" is no corner of a face"),
        ("f 0 1 2\n", 1, "\"0\": vertices count from 1, or from -1 backwards"),
        ("f 1 2 1\n", 1, "vertex 1 stands twice in one face"),
        ("v 0 0 0\nv 0 0 0\nv 0 0 0\nf 1 -3 2\n", 4, "vertex 1 stands twice in one face"),
        ("v 0 0 0\nf 1 2 3\n", 2, "there is no vertex 2: the file has 1"),
        ("v 0 0 0\nf -1 -2 1\n", 2, "there is no vertex -2: 1 stand above this line"),
        ("f 1 2 99999999999\n", 1, "there is no vertex 99999999999: 0 stand above this line"),
        ("v 0 0 0\nsurf 0 1 0 1\n", 2, "\"surf\": curves and curved surfaces are not read; export polygons"),
        ("g a \\\nb\n", 2, "\"b\" begins no statement that is known"),
        ("\nwhat is this\n", 2, "\"what\" begins no statement that is known"),
    ];
    for (text, line, words) in faults {
        let fault = read("m.obj", text.as_bytes()).expect_err(text).words;
        assert!(fault.starts_with(&format!("m.obj:{line}: ")), "{text:?}: {fault}");
        assert!(fault.contains(words), "{text:?}: {fault}");
    }
    let wide = read("m.obj", &b"\xff\xfev\x00 \x00"[..]).expect_err("two bytes a letter").words;
    assert_eq!(wide, "m.obj:1: this is no text of single bytes; export plain OBJ (ASCII or UTF-8)");
    let long = format!("{THREE}{}\n", "x".repeat(10_000));
    assert!(read("m.obj", long.as_bytes()).expect_err("no statement").words.len() < 120);
}

/// A reader that fails in the middle is told, not taken for an end.
#[test]
fn a_read_that_fails_is_told() {
    struct Broken(usize);
    impl std::io::Read for Broken {
        fn read(&mut self, out: &mut [u8]) -> std::io::Result<usize> {
            self.0 += 1;
            match self.0 {
                1 => Err(std::io::ErrorKind::Interrupted.into()),
                2 => {
                    out[..8].copy_from_slice(b"v 0 0 0\n");
                    Ok(8)
                }
                _ => Err(std::io::Error::other("the disk is gone")),
            }
        }
    }
    // read a byte at a time, lines and their ends come out the same
    let text = b"v 0 0 0\r\nv 1 0 \\\r\n0\rv 0 1 0\nf 1 2 3";
    assert_eq!(read("m.obj", std::io::BufReader::with_capacity(1, &text[..])).expect("a mesh"), obj(text));
    let fault = read("m.obj", std::io::BufReader::new(Broken(0))).expect_err("it fails").words;
    assert_eq!(fault, "m.obj: the disk is gone");
}

/// Bytes put in, taken out, changed and doubled anywhere: a file is read or told with a line, and what is read is judged.
#[test]
fn damaged_files() {
    let (mut read_all, mut told) = (0, 0);
    for seed in 0..4_000 {
        let mut random = Random::new(seed);
        let [start, _] = objs_of(&compare::making::generate::scene(seed % 19), &mut random);
        let mut bytes = start.clone().into_bytes();
        bytes.truncate(2_000);
        for _ in 0..1 + random.below(3) {
            let at = random.below(bytes.len() + 1);
            match random.below(4) {
                0 => bytes.insert(at, random.pick(b" \t\r\n\\#/-.0e9vfl\xff\0")),
                1 if at < bytes.len() => drop(bytes.remove(at)),
                2 if at < bytes.len() => bytes[at] = random.pick(b" \t\r\n\\#/-.0e9vfl\xff\0"),
                _ => bytes.truncate(at),
            }
        }
        let (whole, length) = (read("m.obj", &bytes[..]), 1 + random.below(60));
        assert_eq!(whole, former::read("m.obj", &bytes[..]), "{}", bytes.escape_ascii());
        assert_eq!(in_pieces("m.obj", &bytes, length, 2), whole, "pieces of {length}: {}", bytes.escape_ascii());
        match read("m.obj", &bytes[..]) {
            Err(fault) => {
                assert!(fault.words.starts_with("m.obj:"), "{fault}");
                told += 1;
            }
            Ok(_) => {
                let text = String::from_utf8(bytes).unwrap_or_default();
                if let Ok(mesh) = mesh_of(&[text.clone(), text], Some(1.0), false) {
                    report(&mesh, &Form::default(), 1);
                    read_all += 1;
                }
            }
        }
    }
    assert!(read_all > 500 && told > 500, "{read_all} read, {told} told");
}

/// Files in pieces of any length, on any number of threads, are the same: names, lines that go on, vertices counted backwards, and what is told.
#[test]
fn pieces_are_read_as_the_whole() {
    let lines: [&[u8]; 16] = [
        b"v 1 2 3\n", b"v 1e1 2 3 1\r\n", b"v 4 \\\n5 6\n", b"f 1 2 3\n", b"f 1/1 2/1 3/1 4/1\r\n", b"f -1 -2 -3\n",
        b"f 1 2 3 4 5\n", b"o one\n", b"g two three\n", b"g\n", b"l 1 2\n", b"# a comment \\\n", b"\n", b"usemtl cloth\\\n",
        b"f 1 \\\r\n2 3\r\n", b"v 1 2 3\r",
    ];
    for seed in 0..3_000 {
        let mut random = Random::new(seed);
        let mut bytes = b"v 0 0 0\nv 1 0 0\nv 0 1 0\nv 1 1 0\nv 2 1 0\n".to_vec();
        (0..random.below(40)).for_each(|_| bytes.extend_from_slice(random.pick(&lines)));
        bytes.extend_from_slice(random.pick(&[b"".as_slice(), b"", b"", b"f 1 2 999\n", b"v 1 2\n", b"what\n"]));
        let (whole, length, threads) = (read("m.obj", &bytes[..]), 1 + random.below(200), 1 + random.below(3));
        assert_eq!(whole, former::read("m.obj", &bytes[..]), "{}", bytes.escape_ascii());
        assert_eq!(in_pieces("m.obj", &bytes, length, threads), whole, "pieces of {length}: {}", bytes.escape_ascii());
    }
}

/// A decimal of up to so many digits, plain or not so plain.
fn a_decimal(random: &mut Random) -> String {
    let digits = |random: &mut Random, most: usize| -> String {
        let count = random.below(most + 1);
        (0..count).map(|_| random.pick(b"0123456789") as char).collect()
    };
    let sign = random.pick(&["", "", "-", "+"]);
    let most = random.pick(&[1, 6, 9, 12, 20, 30]);
    let (whole, below) = (digits(random, most), digits(random, most));
    let point = random.pick(&[".", ".", ".", ""]);
    let power = if random.below(8) == 0 { format!("e{}", random.below(60) as i64 - 30) } else { String::new() };
    format!("{sign}{whole}{point}{below}{power}")
}

/// Places by plain digits are to the last bit those of the parser that goes by fields; and so are faces, lines and what is told.
#[test]
fn plain_lines_are_read_as_by_fields() {
    let (mut places, mut told) = (0, 0);
    for seed in 0..20_000 {
        let mut random = Random::new(seed);
        let blank = random.pick(&[" ", " ", "  ", "\t", " \t "]);
        let numbers: Vec<String> = (0..random.pick(&[3, 3, 3, 4, 2])).map(|_| a_decimal(&mut random)).collect();
        let end = random.pick(&["\n", "\r\n", " \n", "\r", "", " # c\n"]);
        let text = format!("v{blank}{}{end}", numbers.join(blank));
        let (plain, by_fields) = (read("m.obj", text.as_bytes()), former::read("m.obj", text.as_bytes()));
        let bits = |obj: &Obj| obj.places.iter().map(|place| place.map(f64::to_bits)).collect::<Vec<_>>();
        assert_eq!(plain.as_ref().map(bits), by_fields.as_ref().map(bits), "{text:?}");
        *if plain.is_ok() { &mut places } else { &mut told } += 1;
    }
    assert!(places > 5_000 && told > 1_000, "{places} {told}");
}

#[test]
fn plain_faces_are_read_as_by_fields() {
    let (mut read_all, mut told) = (0, 0);
    for seed in 0..20_000 {
        let mut random = Random::new(seed);
        let blank = random.pick(&[" ", " ", "  ", "\t"]);
        let corner = |random: &mut Random| {
            let number = random.pick(&["1", "2", "3", "4", "5", "05", "6", "7", "-1", "0", "8", "4294967297", "9999999999"]);
            let more = random.pick(&["", "", "/1", "//1", "/1/1", "/", "/1/", "/1/1/1", "//", "/-1/2", "/a", "/12345678901"]);
            format!("{number}{more}")
        };
        let corners: Vec<String> = (0..random.pick(&[3, 4, 3, 4, 5, 2])).map(|_| corner(&mut random)).collect();
        let end = random.pick(&["\n", "\r\n", " \n", "\r", "", " # c\n", " \\\n5\n"]);
        let text = format!("{}f{blank}{}{end}v 1 2 3\n", "v 0 0 0\n".repeat(6), corners.join(blank));
        let (plain, by_fields) = (read("m.obj", text.as_bytes()), former::read("m.obj", text.as_bytes()));
        assert_eq!(plain, by_fields, "{text:?}");
        *if plain.is_ok() { &mut read_all } else { &mut told } += 1;
    }
    assert!(read_all > 500 && told > 5_000, "{read_all} {told}");
}

/// Lines of a report by eight digits at once are those by one digit after the other, at every number of digits.
#[test]
fn lines_are_written_as_digit_by_digit() {
    let borders = (0..10).flat_map(|power| [-1, 0, 1].map(|aside| (10i64.pow(power) + aside) as u32));
    let mut random = Random::new(1);
    let others = (0..2_000).map(|_| (random.next() >> random.below(40)) as u32).collect::<Vec<_>>();
    let numbers: Vec<u32> = borders.chain([u32::MAX, u32::MAX - 1]).chain(others).collect();
    let kinds = [Kind::PointTriangle, Kind::EdgeEdge];
    let shown = |words: &[Settled]| Form { shown: words.to_vec(), ..Form::default() };
    for form in [Form::default(), shown(&[Settled::Hit]), shown(&[Settled::Touch, Settled::Apart]), shown(&[])] {
        let pairs: Vec<(Pair, Settled)> = numbers
            .windows(2)
            .enumerate()
            .map(|(at, two)| (Pair { kind: kinds[at / 7 % 2], first: two[at % 2] & 0x7fff_ffff, second: two[1] }, WORDS[at % 4]))
            .collect();
        let (list, words): (Vec<u64>, Vec<u8>) = pairs.iter().map(|&(pair, word)| (pair.entry(), word as u8)).unzip();
        let (mut lines, mut by_digits, mut one_by_one) = (b"before\n".to_vec(), b"before\n".to_vec(), b"before\n".to_vec());
        form.lines(&list, &words, &mut lines);
        pairs.iter().for_each(|&(pair, word)| former::line(&form, pair, word, &mut by_digits));
        pairs.iter().for_each(|&(pair, word)| form.line(pair, word, &mut one_by_one));
        assert_eq!(String::from_utf8(lines), String::from_utf8(by_digits.clone()));
        assert_eq!(one_by_one, by_digits);
    }
}
