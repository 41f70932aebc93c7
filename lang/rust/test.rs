use std::{fs, io::Write, mem};

fn read(name: &str) -> Vec<u8> {
    fs::read(format!("{}/../samples/{name}", env!("CARGO_MANIFEST_DIR"))).unwrap()
}

#[test]
fn checks() {
    let (s, p, d) = (
        read("deed.ksig"),
        read("publications.bin"),
        read("deed.txt"),
    );
    for (signature, document, publications, says) in [
        (&s[..], &d[..], &p[..], (0, 0, 0, 1700000000)),
        (&s, b"other", &p, (1, 0, 1, 0)),
        (&s, &d, &p[..p.len() - 94], (1, 0, 13, 0)),
        (&s[..s.len() - 1], &d, &p, (3, 1, 1, 0)),
        (&[], &d, &p, (3, 1, 1, 0)),
        (&s, &d, &[], (3, 3, 1, 0)),
    ] {
        let a = ksi::verify(signature, &ksi::digest(document), publications);
        assert_eq!((a.status, a.file, a.code, a.second), says);
    }
}

#[test]
fn publications() {
    let (s, p, d) = (
        read("deed.ksig"),
        read("publications.bin"),
        read("deed.txt"),
    );
    let is = ksi::verify(&s, &ksi::digest(&d), &p).publication();
    assert_eq!((is.second, &is.root[..]), (0x6553ff0f, &p[p.len() - 79..p.len() - 47]));
    assert_eq!((ksi::second(&s), ksi::second(&p)), (Some(1700000000), None));
}

#[test]
fn fronts() {
    let (f, c) = (read("front.bin"), read("calendar.bin"));
    let at = |second, end: usize| ksi::Publication {
        second,
        root: c[end - 32..end].try_into().unwrap(),
    };
    let (old, new) = (at(1700000000, c.len() - 47), at(1700003599, c.len()));
    for (front, old, new, says) in [
        (&f[..], &old, &new, (0, 0, 0)),
        (&f[..f.len() - 35], &old, &new, (1, 4, 1)),
        (&f, &at(1700000000, c.len()), &new, (1, 4, 2)),
        (&f, &old, &at(1700003599, c.len() - 47), (1, 4, 3)),
        (&f, &new, &old, (1, 4, 5)),
        (&[], &old, &new, (3, 4, 1)),
        (&f[..f.len() - 1], &old, &new, (3, 4, 2)),
    ] {
        let a = ksi::check_front(front, old, new);
        assert_eq!((a.status, a.file, a.code), says);
    }
}

/// The values of a field in a file of test cases, whose texts have no escapes.
fn values(cases: &str, field: &str) -> Vec<String> {
    let begin = format!("\"{field}\": \"");
    cases.split(&begin).skip(1).map(|it| it.split('"').next().unwrap().to_string()).collect()
}

fn bytes(hex: &str) -> Vec<u8> {
    (0..hex.len()).step_by(2).map(|k| u8::from_str_radix(&hex[k..k + 2], 16).unwrap()).collect()
}

#[test]
fn vectors() {
    for name in ["accepted", "signature", "publications", "checks"] {
        let cases = fs::read_to_string(format!("{}/../../vectors/{name}.json", env!("CARGO_MANIFEST_DIR"))).unwrap();
        let [signatures, hashes, publications, lines] = ["signature", "hash", "publications", "prints"].map(|it| values(&cases, it));
        assert!(!lines.is_empty());
        for (k, line) in lines.iter().enumerate() {
            let hash: [u8; 32] = bytes(&hashes[k]).try_into().unwrap();
            let answer = ksi::verify(&bytes(&signatures[k]), &hash, &bytes(&publications[k]));
            let words: Vec<&str> = line.split(' ').collect();
            match words[0] {
                "accepted" => assert_eq!((answer.status, answer.second.to_string()), (0, words[1].to_string())),
                "refused" => assert_eq!((answer.status, format!("V{}", answer.code)), (1, words[1].to_string())),
                _ => assert_eq!((answer.status, answer.file.to_string(), answer.code.to_string()), (3, words[1].to_string(), words[2][1..].to_string())),
            }
        }
    }
}

#[test]
fn pieces() {
    let document = read("deed.ksig");
    let mut hasher = ksi::Hasher::new();
    let empty = hasher.clone();
    for piece in document.chunks(37) {
        hasher.write_all(piece).unwrap();
    }
    assert_eq!(hasher.digest(), ksi::digest(&document));
    // it goes on after its digest was read, and a copy goes on by itself
    hasher.update(b"more");
    assert_eq!(hasher.digest(), ksi::digest(&[&document[..], b"more"].concat()));
    assert_eq!((empty.digest(), mem::size_of::<ksi::Hasher>()), (ksi::digest(b""), 104));
}

#[test]
fn steps() {
    let steps: Vec<ksi::Step> = ksi::steps(&read("deed.ksig")).collect();
    assert_eq!((steps.len(), mem::size_of::<ksi::Step>()), (32, 4200));
    assert_eq!(steps[0].node, ksi::digest(&read("deed.txt")));
    for pair in steps.windows(2) {
        assert_eq!(pair[1].node, pair[0].join);
    }
    assert_eq!(ksi::steps(&read("deed.txt")).count(), 0);
}
