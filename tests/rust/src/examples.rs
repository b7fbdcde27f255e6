//! P1 to P12 of document 01, and a set of small trees that has every record kind and every choice within a record.

use crate::node::*;

const A: u16 = 4;
const B: u16 = 5;
const C: u16 = 6;
const ONE: u64 = 0x3FF0_0000_0000_0000;

/// What document 01 says of an example: the code of each function in hex, or the number of a refusal.
pub enum Told {
    Codes(&'static [&'static str]),
    Refused(u32),
}

pub struct Example {
    pub label: &'static str,
    pub tree: Tree,
    pub told: Told,
}

/// P2's whole image.
pub const P2_IMAGE: &str = "494D01000000 464E030000000001000300000005000000 434E000000000000F03F \
    5255060000000700000002 5255000000000800000001 5255000000000000000002 434400001B0124";

pub fn examples() -> Vec<Example> {
    let example = |label, tree, told| Example { label, tree, told };
    vec![
        example("P1", tree(0, vec![]), Told::Codes(&["0124"])),
        example("P2", tree(0, vec![print((0, 8), number((6, 7), ONE))]), Told::Codes(&["00001B0124"])),
        example(
            "P3",
            tree(1, vec![var((0, 10), A, Some(number((8, 9), ONE))), print((11, 19), name((17, 18), A))]),
            Told::Codes(&["0000080107011B0124"]),
        ),
        example(
            "P4",
            tree(
                1,
                vec![block(
                    (0, 25),
                    vec![var((2, 14), A, Some(word((10, 13), 2))), print((15, 23), name((21, 22), A))],
                )],
            ),
            Told::Codes(&["0105001B040124"]),
        ),
        example("P5", tree(1, vec![fun((0, 11), A, &[A], vec![])]), Told::Refused(10)),
        example("P6", tree(1, vec![block((0, 14), vec![var((2, 12), A, Some(name((10, 11), A)))])]), Told::Refused(11)),
        example("P7", tree(1, vec![class((0, 14), A, Some(name((10, 11), A)), vec![])]), Told::Refused(12)),
        example("P8", tree(0, vec![return_((0, 7), None)]), Told::Refused(20)),
        example(
            "P9",
            tree(0, vec![eval((0, 15), infix((0, 14), 10, word((0, 4), 1), word((9, 14), 0)))]),
            Told::Codes(&["021D02000403040124"]),
        ),
        example(
            "P10",
            tree(0, vec![while_((0, 23), word((7, 11), 1), print((13, 23), word((19, 22), 2)))]),
            Told::Codes(&["021D060004011B1E0A00040124"]),
        ),
        example(
            "P11",
            tree(
                2,
                vec![fun(
                    (0, 42),
                    B,
                    &[A],
                    vec![if_(
                        (11, 40),
                        name((15, 16), A),
                        print((18, 26), number((24, 25), ONE)),
                        Some(return_((32, 39), None)),
                    )],
                )],
            ),
            Told::Codes(&["05011D07000400001B1C0300040124", "220008010124"]),
        ),
        example(
            "P12",
            tree(
                3,
                vec![fun(
                    (0, 34),
                    A,
                    &[C],
                    vec![fun((11, 32), B, &[], vec![return_((21, 30), Some(name((28, 29), C)))])],
                )],
            ),
            Told::Codes(&["0A0024", "220001010124", "220008010124"]),
        ),
    ]
}

/// Small trees which together have every record kind, flag, operator and literal.
pub fn small_set() -> Vec<Tree> {
    let nil = |at| word((at, at + 3), 2);
    let mut set: Vec<Tree> = examples().into_iter().map(|example| example.tree).collect();
    for flags in 0..8u32 {
        let init = (flags & 1 != 0).then(|| var((5, 15), A, Some(nil(13))));
        let cond = (flags & 2 != 0).then(|| name((17, 18), A));
        let incr = (flags & 4 != 0).then(|| assign((20, 25), A, nil(24)));
        set.push(tree(1, vec![for_((0, 40), init, cond, block((28, 30), vec![]), incr)]));
    }
    for kind in 0..3 {
        set.push(tree(0, vec![eval((0, 5), word((0, 4), kind))]));
    }
    for op in 0..12 {
        set.push(tree(2, vec![eval((0, 6), infix((0, 5), op, string((0, 1), A), string((4, 5), B)))]));
    }
    for op in 0..2 {
        set.push(tree(0, vec![print((0, 9), prefix((6, 8), op, number((7, 8), ONE)))]));
    }
    let method = |number, body| fun((30, 50), number, &[], body);
    set.push(tree(
        3,
        vec![
            class((0, 12), A, None, vec![]),
            class(
                (13, 60),
                B,
                Some(name((23, 24), A)),
                vec![
                    method(2, vec![return_((31, 38), None)]),
                    method(
                        C,
                        vec![
                            eval((31, 40), call((31, 39), super_((31, 38), C), vec![name((36, 40), 0)])),
                            return_((41, 55), Some(super_((48, 55), C))),
                        ],
                    ),
                ],
            ),
        ],
    ));
    set.push(tree(
        2,
        vec![class(
            (0, 40),
            A,
            None,
            vec![method(
                B,
                vec![
                    eval((1, 9), set_this(B)),
                    if_(
                        (10, 19),
                        call((12, 15), get((12, 14), B, name((12, 13), 0)), vec![]),
                        block((16, 18), vec![]),
                        None,
                    ),
                ],
            )],
        )],
    ));
    set.push(tree(
        3,
        vec![block(
            (0, 90),
            vec![
                var((2, 8), A, None),
                fun(
                    (9, 60),
                    B,
                    &[C, 1],
                    vec![fun(
                        (15, 50),
                        C,
                        &[],
                        vec![
                            eval((20, 26), assign((20, 25), A, name((24, 25), A))),
                            return_(
                                (27, 40),
                                Some(call((34, 39), name((34, 35), B), vec![nil(36), name((38, 39), 1)])),
                            ),
                        ],
                    )],
                ),
                print((61, 70), get((67, 69), C, name((67, 68), A))),
            ],
        )],
    ));
    set.push(Tree {
        names: vec![b"".to_vec(), b"thi".to_vec(), b"this!".to_vec(), b"\xFF".to_vec()],
        stmts: vec![eval((0, 0), string((0, 0), 7)), eval((0, 0), name((0, 0), 4))],
    });
    set
}

/// One tree with every record kind.
pub fn every_kind() -> Tree {
    let of_this = |at| get((at, at + 6), C, name((at, at + 4), 0));
    let method = fun((20, 60), 2, &[A], vec![eval((24, 34), set_this(B)), return_((35, 42), None)]);
    let other = fun((61, 90), C, &[], vec![return_((65, 80), Some(call((72, 79), super_((72, 79), C), vec![])))]);
    let loop_ = while_((100, 130), prefix((107, 109), 1, name((108, 109), A)), print((111, 128), of_this(117)));
    tree(
        3,
        vec![
            class((0, 95), B, Some(name((10, 11), A)), vec![method, other]),
            for_(
                (96, 200),
                Some(var((101, 111), A, Some(number((109, 110), ONE)))),
                Some(infix((112, 117), 4, name((112, 113), A), string((116, 117), C))),
                block((130, 190), vec![if_((131, 180), word((135, 139), 1), loop_, Some(block((170, 172), vec![])))]),
                Some(assign((118, 127), A, word((122, 125), 2))),
            ),
        ],
    )
}

fn set_this(field: u16) -> Node {
    set((1, 8), field, word((4, 7), 2), name((1, 2), 0))
}
