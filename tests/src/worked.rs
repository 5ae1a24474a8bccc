//! Texts worked by hand, with the image or the refusal of each: for the tests of every reader, and for the vectors of the program
//! `encoded`.

/// The list of the texts below.
pub const LIST: &str = "f,3\ng,7\n";

/// An image is told by its N and its nodes, or by its counts alone.
pub const TEXTS: [(&str, &str); 109] = [
    ("skip", "N 0: 37 0 0 0"),
    ("", "refused 23, line 1"),
    (" \n\n ", "refused 23, line 3"),
    ("\nskip\n", "N 0: 37 0 0 0"),
    ("var X; X = 1", "N 1: 2 1 0 0; 35 0 0 0; 32 0 1 0"),
    ("{skip; skip}", "N 0: 37 0 0 0; 37 0 0 0; 38 0 1 0"),
    ("{skip || skip}", "N 0: 37 0 0 0; 37 0 0 0; 41 0 1 0"),
    ("{skip}", "refused 23, line 1"),
    ("{skip; skip; skip}", "refused 23, line 1"),
    ("{skip;}", "refused 23, line 1"),
    ("{skip;\nskip || skip}", "refused 23, line 2"),
    ("skip;", "refused 23, line 1"),
    ("{var X; X = 1; X = 2}", "N 1: 2 1 0 0; 35 0 0 0; 32 0 1 0; 2 2 0 0; 35 0 3 0; 38 2 4 0"),
    ("{var X; var Y; skip}", "refused 23, line 1"),
    (
        "var X; {X = 1; X = X - -1}",
        "N 1: 2 1 0 0; 35 0 0 0; 5 0 0 0; 2 65535 65535 0; 3 2 3 0; 35 0 4 0; 38 1 5 0; 32 0 6 0",
    ),
    ("X = 1 - 2 - 3", "N 1: 2 1 0 0; 2 2 0 0; 3 0 1 0; 2 3 0 0; 3 2 3 0; 35 0 4 0"),
    ("X = 1 - (2 - 3)", "N 1: 2 1 0 0; 2 2 0 0; 2 3 0 0; 3 1 2 0; 3 0 3 0; 35 0 4 0"),
    ("X = Y.f.g - Z.f", "accepted, M 10, N 3"),
    ("X = Y - Z.f", "N 3: 5 1 0 0; 5 2 0 0; 1 1 0 0; 6 1 2 0; 3 0 3 0; 35 0 4 0"),
    ("X = (((Y)))", "N 2: 5 1 0 0; 35 0 0 0"),
    ("X=1-1", "N 1: 2 1 0 0; 2 1 0 0; 3 0 1 0; 35 0 2 0"),
    ("X = Y -1", "N 2: 5 1 0 0; 2 1 0 0; 3 0 1 0; 35 0 2 0"),
    ("X = Y - -1", "N 2: 5 1 0 0; 2 65535 65535 0; 3 0 1 0; 35 0 2 0"),
    ("X = Y--1", "N 2: 5 1 0 0; 2 65535 65535 0; 3 0 1 0; 35 0 2 0"),
    ("X = --1", "refused 23, line 1"),
    ("X = - 1", "refused 23, line 1"),
    ("X = -Y", "refused 23, line 1"),
    ("X = -0", "N 1: 2 0 0 0; 35 0 0 0"),
    ("X = 007", "N 1: 2 7 0 0; 35 0 0 0"),
    ("X = 2147483647", "N 1: 2 65535 32767 0; 35 0 0 0"),
    ("X = 2147483648", "refused 25, line 1"),
    ("X = -2147483648", "N 1: 2 0 32768 0; 35 0 0 0"),
    ("X = -2147483649", "refused 25, line 1"),
    ("X = 0 -2147483648", "refused 25, line 1"),
    ("X.f = 1", "N 1: 5 0 0 0; 1 1 0 0; 2 1 0 0; 36 0 1 2"),
    ("X.f.g = 1", "N 1: 5 0 0 0; 1 1 0 0; 6 0 1 0; 1 2 0 0; 2 1 0 0; 36 2 3 4"),
    ("X.(f) = 1", "N 1: 5 0 0 0; 1 1 0 0; 2 1 0 0; 36 0 1 2"),
    ("(X).f = 1", "N 1: 5 0 0 0; 1 1 0 0; 2 1 0 0; 36 0 1 2"),
    ("(X.f) = 1", "refused 23, line 1"),
    ("(X) = 1", "refused 23, line 1"),
    ("X - Y.f = 1", "refused 23, line 1"),
    ("(X - Y).f = 1", "N 2: 5 0 0 0; 5 1 0 0; 3 0 1 0; 1 1 0 0; 2 1 0 0; 36 2 3 4"),
    ("f.g = 1", "N 0: 1 1 0 0; 1 2 0 0; 2 1 0 0; 36 0 1 2"),
    ("X.h = 1", "refused 24, line 1"),
    ("h = 1", "refused 24, line 1"),
    ("f = 1", "refused 23, line 1"),
    ("1(2)", "N 0: 2 1 0 0; 2 2 0 0; 33 0 1 0"),
    ("-1(2)", "N 0: 2 65535 65535 0; 2 2 0 0; 33 0 1 0"),
    ("X - 1(3)", "N 1: 5 0 0 0; 2 1 0 0; 3 0 1 0; 2 3 0 0; 33 2 3 0"),
    ("X.f(1)", "N 1: 5 0 0 0; 1 1 0 0; 6 0 1 0; 2 1 0 0; 33 2 3 0"),
    ("(X)(1)", "N 1: 5 0 0 0; 2 1 0 0; 33 0 1 0"),
    ("X(1)(2)", "refused 23, line 1"),
    ("P = proc Y: X = 1 - 2", "N 3: 2 1 0 0; 2 2 0 0; 3 0 1 0; 35 2 2 0; 7 1 3 0; 35 0 4 0"),
    ("P = proc Y: skip - 1", "refused 23, line 1"),
    ("P = (proc Y: skip) - 1", "N 2: 37 0 0 0; 7 1 0 0; 2 1 0 0; 3 1 2 0; 35 0 3 0"),
    ("P = 1 - proc Y: skip", "N 2: 2 1 0 0; 37 0 0 0; 7 1 1 0; 3 0 2 0; 35 0 3 0"),
    ("P = X.proc Y: skip", "N 3: 5 1 0 0; 37 0 0 0; 7 2 1 0; 6 0 2 0; 35 0 3 0"),
    ("P = 1 - X.proc Y: skip", "N 3: 2 1 0 0; 5 1 0 0; 37 0 0 0; 7 2 2 0; 6 1 3 0; 3 0 4 0; 35 0 5 0"),
    ("X.proc Y: skip = 3", "N 2: 5 0 0 0; 37 0 0 0; 7 1 1 0; 2 3 0 0; 36 0 2 3"),
    ("proc Y: skip(1)", "refused 23, line 1"),
    ("(proc Y: skip)(1)", "N 1: 37 0 0 0; 7 0 0 0; 2 1 0 0; 33 1 2 0"),
    ("while X == proc Y: skip\nskip", "N 2: 5 0 0 0; 37 0 0 0; 7 1 1 0; 18 0 2 0; 37 0 0 0; 39 3 4 0"),
    (
        "while X == proc Y: skip (P)(1)",
        "N 3: 5 0 0 0; 37 0 0 0; 7 1 1 0; 18 0 2 0; 5 2 0 0; 2 1 0 0; 33 4 5 0; 39 3 6 0",
    ),
    ("while X == proc Y: skip -1(2)", "refused 23, line 1"),
    ("while proc Y: skip == X skip", "refused 23, line 1"),
    ("while true -1(2)", "N 0: 16 0 0 0; 2 65535 65535 0; 2 2 0 0; 33 1 2 0; 39 0 3 0"),
    ("while X == Y -1(2)", "refused 23, line 1"),
    ("while X == Y (Z)(1)", "N 3: 5 0 0 0; 5 1 0 0; 18 0 1 0; 5 2 0 0; 2 1 0 0; 33 3 4 0; 39 2 5 0"),
    ("while X<1skip", "N 1: 5 0 0 0; 2 1 0 0; 19 0 1 0; 37 0 0 0; 39 2 3 0"),
    ("while (true) skip", "refused 23, line 1"),
    (
        "if X < 1 skip else if true skip else skip",
        "N 1: 5 0 0 0; 2 1 0 0; 19 0 1 0; 37 0 0 0; 16 0 0 0; 37 0 0 0; 37 0 0 0; 40 4 5 6; 40 2 3 7",
    ),
    ("if true skip", "refused 23, line 1"),
    ("if true {skip; skip} else\n skip", "N 0: 16 0 0 0; 37 0 0 0; 37 0 0 0; 38 1 2 0; 37 0 0 0; 40 0 3 4"),
    ("atom(skip)", "N 0: 37 0 0 0; 42 0 0 0"),
    ("atom skip", "refused 23, line 1"),
    ("atom({skip; skip})", "N 0: 37 0 0 0; 37 0 0 0; 38 0 1 0; 42 2 0 0"),
    ("malloc(X)", "N 1: 34 0 0 0"),
    ("malloc((X))", "refused 23, line 1"),
    ("malloc(f)", "refused 23, line 1"),
    ("var x; skip", "refused 23, line 1"),
    ("var val; skip", "refused 23, line 1"),
    ("X = val", "refused 23, line 1"),
    ("X = null.f", "N 1: 4 0 0 0; 1 1 0 0; 6 0 1 0; 35 0 2 0"),
    ("X = true", "refused 23, line 1"),
    ("{skip | skip}", "refused 23, line 1"),
    ("{skip |# skip}", "refused 23, line 1"),
    ("X = Y_", "refused 22, line 1"),
    ("X = 1, 2", "refused 22, line 1"),
    ("skip\n#", "refused 22, line 2"),
    ("{skip;\n\n", "refused 23, line 3"),
    ("X == 1", "refused 23, line 1"),
    ("X = Y == Z", "refused 23, line 1"),
    ("skip1", "refused 24, line 1"),
    ("then.f = 1", "refused 24, line 1"),
    ("{X = 1; {Y = X || Z = Y}}", "N 3: 2 1 0 0; 35 0 0 0; 5 0 0 0; 35 1 2 0; 5 1 0 0; 35 2 4 0; 41 3 5 0; 38 1 6 0"),
    ("var P; {P = proc Y: if Y < 1 P = 1 else P(Y - 1); P(1)}", "accepted, M 18, N 2"),
    // further ones
    ("X = 99999999999 #", "refused 25, line 1"),
    ("X = h )", "refused 24, line 1"),
    (
        "while X == Y -1(2)(3)",
        "N 2: 5 0 0 0; 5 1 0 0; 2 1 0 0; 3 1 2 0; 18 0 3 0; 2 2 0 0; 2 3 0 0; 33 5 6 0; 39 4 7 0",
    ),
    ("X =\n= 1", "refused 23, line 2"),
    ("X.-1 = 2", "N 1: 5 0 0 0; 2 65535 65535 0; 2 2 0 0; 36 0 1 2"),
    ("X.\nproc Y: Z = 1", "refused 23, line 2"),
    ("X -\nproc Y: skip", "refused 23, line 2"),
    ("while\nproc Y: skip == X skip", "refused 23, line 2"),
    ("while true\n-99999999999(1)", "refused 25, line 2"),
    ("while X == proc Y: skip\n-99999999999(1)", "refused 23, line 2"),
    ("var\nh; skip", "refused 23, line 2"),
    ("{skip\n|\n| skip}", "refused 23, line 2"),
    ("X\r\n=\r\n\t1\r\n;", "refused 23, line 4"),
];

/// Lists with the text `skip`.
pub const LISTS: [(&str, &str); 22] = [
    ("", "N 0: 37 0 0 0"),
    ("f,3", "refused 21, line 0"),
    ("f,3\n\n", "refused 21, line 0"),
    ("f,0\n", "refused 21, line 0"),
    ("f,65535\n", "N 0: 37 0 0 0"),
    ("f,65536\n", "refused 21, line 0"),
    ("f,3\ng,3\n", "refused 21, line 0"),
    ("f,3\nf,4\n", "refused 21, line 0"),
    ("val,3\n", "refused 21, line 0"),
    ("F,3\n", "refused 21, line 0"),
    ("f, 3\n", "refused 21, line 0"),
    ("f,3\r\n", "refused 21, line 0"),
    ("f,003\n", "N 0: 37 0 0 0"),
    ("f1A,3\n", "N 0: 37 0 0 0"),
    ("f,3\n,4\n", "refused 21, line 0"),
    ("f3\n", "refused 21, line 0"),
    ("f,\n", "refused 21, line 0"),
    ("f,+3\n", "refused 21, line 0"),
    ("f_,3\n", "refused 21, line 0"),
    ("f,00000000000000000000000000000000000000000000000003\n", "N 0: 37 0 0 0"),
    ("f,99999999999999999999999999999999999999999999999999\n", "refused 21, line 0"),
    ("f,9\ng,7\n", "refused 21, line 0"),
];

/// A list of so many rows.
pub fn rows(count: usize) -> String {
    (0..count).map(|row| format!("f{row},{}\n", row + 1)).collect()
}

fn nested(open: usize, shut: usize) -> String {
    format!("{}skip{}", "{skip; ".repeat(open), "}".repeat(shut))
}

fn names(count: usize) -> String {
    (0..count).map(|name| format!("var A{name};\n")).collect::<String>() + "skip"
}

/// Long texts, with a name for each.
pub fn long() -> Vec<(&'static str, String, &'static str)> {
    vec![
        ("nodes_2047", nested(1_023, 1_023), "accepted, M 2047, N 0"),
        ("nodes_2048", format!("atom({})", nested(1_023, 1_023)), "accepted, M 2048, N 0"),
        ("nodes_2049", nested(1_024, 1_024), "refused 27, line 0"),
        ("bad_byte_behind_many_nodes", nested(3_000, 2_999) + "\n#", "refused 22, line 2"),
        ("early_end_behind_many_nodes", nested(3_000, 2_999), "refused 23, line 1"),
        ("names_128", names(128), "accepted, M 129, N 128"),
        ("names_129", names(129), "refused 26, line 129"),
    ]
}

/// Texts of 200 KB to 1.6 MB: deep ones, long words, many lines.
pub fn longest() -> Vec<(String, &'static str)> {
    let (open, shut) = ("(".repeat(100_000), ")".repeat(99_999));
    let million = |byte: &str| byte.repeat(1_000_000);
    vec![
        (format!("X = {open}1{shut})"), "N 1: 2 1 0 0; 35 0 0 0"),
        (format!("X = {open}1{shut}}}"), "refused 23, line 1"),
        (nested(200_000, 200_000), "refused 27, line 0"),
        (format!("X = {}7", million("0")), "N 1: 2 7 0 0; 35 0 0 0"),
        (format!("X = 1{}", million("0")), "refused 25, line 1"),
        (format!("malloc(X{})", million("x")), "N 1: 34 0 0 0"),
        (format!("X = {}", million("f")), "refused 24, line 1"),
        (format!("{}skip{}", million("\n"), million(" ")), "N 0: 37 0 0 0"),
        (format!("{}#", million("\n")), "refused 22, line 1000001"),
        (format!("X = 1{}", " - 1".repeat(250_000)), "refused 27, line 0"),
        (format!("{}skip", "atom(".repeat(200_000)), "refused 23, line 1"),
    ]
}
