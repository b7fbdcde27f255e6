//! The crate against the committed vectors of tests/vectors, whose answers are the Rust's, against document 01's P2, and on damaged bytes.
//! The first difference ends the run.

#[cfg(target_arch = "x86_64")]
mod unpack;

#[cfg(not(target_arch = "x86_64"))]
fn main() {
    println!("skipped: the archive is x86-64's, and this machine is {}", std::env::consts::ARCH);
}

#[cfg(target_arch = "x86_64")]
fn main() {
    let second: usize = ["tree", "compile", "limits", "refused"].map(on_x86::compiles).iter().sum();
    assert!(second > 0, "no case needs more than the first room");
    on_x86::checks();
    on_x86::work_short();
    on_x86::p2();
    on_x86::directory();
    on_x86::touches();
    on_x86::example();
    on_x86::texts();
    on_x86::damaged();
}

#[cfg(target_arch = "x86_64")]
mod on_x86 {
    use std::fs;
    use std::path::{Path, PathBuf};

    use puffbramble::*;

    use crate::unpack::{self, Told};

    fn top() -> PathBuf {
        Path::new(env!("CARGO_MANIFEST_DIR")).join("../..")
    }

    fn file(name: &str) -> Vec<u8> {
        fs::read(top().join(name)).unwrap_or_else(|error| panic!("{name}: {error}"))
    }

    /// The refusal that the vector's numbers stand for.
    fn refusal(told: &Told) -> Refusal {
        let (at, name) = (told.at, told.name);
        let span = Span { start: at, end: told.end };
        let within = Within { function: told.function, around: told.around };
        match told.number {
            2 => Refusal::TreeTooLong,
            3 => Refusal::TreeForm { at },
            4 => Refusal::TreeTooDeep { at },
            5 => Refusal::TooManyOpen { at },
            10 => Refusal::AlreadyDefined { span, name, within },
            11 => Refusal::AccessInsideInitializer { span, name, within },
            12 => Refusal::ClassInheritFromSelf { span, name, within },
            13 => Refusal::JumpTooLarge { span, within },
            14 => Refusal::TooManyArgs { span, within },
            15 => Refusal::TooManyConstants { span, within },
            16 => Refusal::TooManyLocals { span, within },
            17 => Refusal::TooManyParams { span, within },
            18 => Refusal::TooManyUpvalues { span, within },
            19 => Refusal::ReturnInInitializer { span, within },
            20 => Refusal::ReturnOutsideFunction { span, within },
            21 => Refusal::SuperOutsideClass { span, within },
            22 => Refusal::SuperWithoutSuperclass { span, within },
            23 => Refusal::ThisOutsideClass { span, within },
            30 => Refusal::CodeFull { within },
            31 => Refusal::OutFull { needed: told.length },
            number => panic!("no vector has {number}"),
        }
    }

    /// The compiler, with what the case lends, and the reader, on each case of a pack. How many accepted cases the first room does not take.
    pub fn compiles(pack: &str) -> usize {
        let cases = unpack::cases(&file(&format!("tests/vectors/{pack}.pack")));
        let mut second = 0;
        for (k, case) in cases.iter().enumerate() {
            let enough = Sizes::enough(case.tree.len());
            let sizes = Sizes {
                code_bytes: case.code.unwrap_or(enough.code_bytes),
                span_words: case.spans.unwrap_or(enough.span_words),
                output_bytes: case.output.unwrap_or(enough.output_bytes),
                ..enough
            };
            let want = if case.told.number == 0 { Ok(&case.image[..]) } else { Err(refusal(&case.told)) };
            let mut areas = Areas::new(sizes);
            assert!(compile_in(&case.tree, Options::default(), &mut areas) == want, "{pack}.pack, case {k}: {:?} is wanted", case.told);
            if case.code.or(case.spans).or(case.output).is_none() {
                assert!(
                    compile(&case.tree) == want.map(<[u8]>::to_vec),
                    "{pack}.pack, case {k}: not the same in memory of its own"
                );
                let first = compile_in(&case.tree, Options::default(), &mut Areas::new(Sizes::first(case.tree.len()))).is_ok();
                second += usize::from(want.is_ok() && !first);
            }
            let read_as = if (2..=5).contains(&case.told.number) { Err(refusal(&case.told)) } else { Ok(()) };
            assert_eq!(read(&case.tree), read_as, "{pack}.pack, case {k}: the reader");
        }
        println!("{pack}.pack: {} cases agree, {second} of them in the second room", cases.len());
        second
    }

    /// The checker on each image, and the lookups' refusals.
    pub fn checks() {
        let images = unpack::images(&file("tests/vectors/images.pack"));
        for (k, (image, count)) in images.iter().enumerate() {
            assert_eq!(check(image), count.ok_or(Refusal::ImageRefused), "images.pack, image {k}");
            assert_eq!(Image::new(image.clone()).map(|image| image.instructions()).ok(), *count);
            let Ok(image) = Image::new(image.clone()) else {
                assert_eq!(code_answer(image, 0), Err(Refusal::ImageRefused));
                assert_eq!(code_of(image, 0), Err(Refusal::ImageRefused));
                continue;
            };
            let functions = image.functions();
            assert_eq!(code_answer(image.bytes(), functions - 1), Ok(()));
            assert_eq!(code_answer(image.bytes(), functions), Err(Refusal::NoSuchFunction));
            assert_eq!(image.code(functions), Err(Refusal::NoSuchFunction));
            // the last function's code is the image's end but for a directory, and the runs add up to it
            let code = image.code(functions - 1).expect("the script");
            assert_eq!(Ok(code), code_of(image.bytes(), functions - 1));
            assert!(image.has_directory() || image.bytes().ends_with(code));
            assert_eq!(image.span(functions - 1, code.len()), Err(Refusal::NoSuchByte));
            assert!(code.is_empty() || image.span(functions - 1, code.len() - 1).is_ok());
        }
        println!("images.pack: {} images agree", images.len());
    }

    /// 1, which no vector has, and areas of any size.
    pub fn work_short() {
        let all = usize::MAX;
        let mut areas = Areas::new(Sizes { table_words: all, code_bytes: all, span_words: all, output_bytes: all });
        assert!(compile_in(&p2_tree(), Options::default(), &mut areas).is_ok());
        for (table_words, want) in
            [(0, Err(Refusal::WorkShort)), (TABLE_WORDS - 1, Err(Refusal::WorkShort)), (TABLE_WORDS, Ok(()))]
        {
            let mut areas = Areas::new(Sizes { table_words, ..Sizes::enough(35) });
            assert_eq!(compile_in(&p2_tree(), Options::default(), &mut areas).map(|_| ()), want);
        }
    }

    /// `print 1;` by document 01: spans 0..8 and 6..7.
    fn p2_tree() -> Vec<u8> {
        let mut tree = b"TR\0\0\x01\0SP\0\0\0\0\x08\0\0\0EL\x06\0\0\0\x07\0\0\0\x03".to_vec();
        tree.extend(1f64.to_le_bytes());
        tree
    }

    /// P2's image, code and spans, by document 01.
    pub fn p2() {
        let image = Image::new(compile(&p2_tree()).expect("P2 is accepted")).expect("its image too");
        assert_eq!((image.bytes().len(), image.functions(), image.instructions()), (73, 1, 4));
        assert_eq!(image.code(0), Ok(&[0x00, 0x00, 0x1B, 0x01, 0x24][..]));
        for (offset, start, end) in [(0, 6, 7), (1, 6, 7), (2, 0, 8), (3, 0, 0), (4, 0, 0)] {
            assert_eq!(image.span(0, offset), Ok(Span { start, end }), "byte {offset}");
        }
        assert_eq!(image.span(0, 5), Err(Refusal::NoSuchByte));
        assert_eq!(image.span(1, 0), Err(Refusal::NoSuchFunction));
        println!("P2: as document 01 has it");
    }

    /// The directory of P2's image by the request's text; what goes through it is what the walk gives, and no other place is trusted.
    pub fn directory() {
        let plain = compile(&p2_tree()).expect("P2 is accepted");
        let asked = compile_with(&p2_tree(), Options { directory: true }).expect("with a directory too");
        assert_eq!(asked, [&plain[..], b"DX\x01\0\0\0\x06\0\0\0"].concat());
        assert_eq!((directory_of(&plain), directory_of(&asked)), (Ok(None), Ok(Some(73))));
        assert_eq!(directory_of(&asked[..82]), Err(Refusal::ImageRefused));
        assert_eq!(code_through(&asked, 73, 0), Ok(68..73));
        assert_eq!(code_through(&asked, 73, 1), Err(Refusal::NoSuchFunction));
        for place in (0..=84).filter(|&place| place != 73).chain([usize::MAX]) {
            assert_eq!(code_through(&asked, place, 0), Err(Refusal::ImageRefused), "place {place}");
        }
        let image = Image::new(asked).expect("an image");
        assert_eq!((image.has_directory(), image.code(0)), (true, Ok(&[0x00, 0x00, 0x1B, 0x01, 0x24][..])));
        println!("directory: as the request has it");
    }

    /// A global that P2 does not name, and one that the example names, by its number and by its text.
    pub fn touches() {
        let (tree, image) = (file("examples/fan.tree"), file("examples/fan.image"));
        let p2 = compile(&p2_tree()).expect("P2 is accepted");
        assert_eq!(touch(&p2, 4), Ok((None, 4)));
        assert_eq!(touch(&p2[1..], 4), Err(Refusal::ImageRefused));
        assert_eq!(name_number(&tree, b"no such name"), None);
        assert_eq!((name_number(&tree, b"speed"), name_text(&tree, 6)), (Some(6), Some(&b"speed"[..])));
        assert_eq!((name_text(&tree, 2), name_text(&tree, 7)), (Some(&b"init"[..]), None));
        assert_eq!((name_number(&tree[1..], b"this"), name_text(&tree[1..], 0)), (None, None));
        let named: Vec<u16> = (0..40).filter(|&name| matches!(touch(&image, name), Ok((Some(_), _)))).collect();
        assert!(!named.is_empty());
        for text in [&b"fan"[..], b"gas", b"speed"] {
            let Some(name) = name_number(&tree, text) else { continue };
            assert_eq!(touch_text(&image, &tree, text), touch(&image, name));
        }
        println!("touches: {} globals of the example", named.len());
    }

    /// The rules of examples/, whose image is the Rust's.
    pub fn example() {
        assert_eq!(compile(&file("examples/fan.tree")), Ok(file("examples/fan.image")));
        let text = String::from_utf8(file("examples/refused.lox")).expect("the rule is text");
        let tree = file("examples/refused.tree");
        let Err(refusal @ Refusal::AccessInsideInitializer { span, name: 6, within }) = compile(&tree) else {
            panic!("the rule reads a variable in its own initializer");
        };
        assert_eq!(&text[span.start as usize..span.end as usize], "speed");
        assert_eq!(within, Within { function: 4, around: 1 });
        assert_eq!(refusal.text(&tree), "text 29..34, in 'fan', 1 deep: 'speed' is read in its own initial value");
        assert_eq!(refusal.to_string(), "text 29..34, in function 4, 1 deep: name 6 is read in its own initial value");
        println!("examples: as the Rust has them");
    }

    /// Each text names its place, and 10 to 30 the function: by its number, or by its text where a tree has it.
    pub fn texts() {
        let span = Span { start: 123, end: 456 };
        let tree = file("examples/fan.tree");
        for number in (2..=5).chain(10..=23).chain(30..=31) {
            let told = Told { number, at: span.start, end: span.end, name: 789, length: 321, function: 4, around: 2 };
            let refused = refusal(&told);
            let text = refused.to_string();
            let names = |part: &str| assert!(text.contains(part), "{text}");
            if let Some(within) = refused.within() {
                assert_eq!(within, Within { function: 4, around: 2 });
                names("in function 4, 2 deep");
                assert_eq!(refused.text(&tree), text.replace("function 4", "'fan'"));
                assert_eq!(refused.text(&tree[1..]), text, "a file that is no tree has no names");
                let script = refusal(&Told { function: 3, around: 0, ..told });
                assert!(script.to_string().contains("in the script") && script.text(&tree) == script.to_string());
            }
            assert_eq!(refused.within().is_some(), (10..=30).contains(&number));
            match number {
                3..=5 => names("byte 123"),
                10..=12 => {
                    names("123..456");
                    names("789");
                }
                13..=23 => names("123..456"),
                31 => names("321"),
                _ => assert!(!text.is_empty()),
            }
        }
    }

    /// Every truncation and a change of every byte of a tree and an image: something is answered, and nothing panics.
    pub fn damaged() {
        let (tree, image) = (file("examples/fan.tree"), file("examples/fan.image"));
        let mut refused = 0;
        for place in 0..tree.len() {
            let mut changed = tree.clone();
            changed[place] ^= 0x41;
            assert!(compile(&tree[..place]).is_err(), "a cut tree is refused");
            refused += u32::from(compile(&changed).is_err());
        }
        for place in 0..image.len() {
            let mut changed = image.clone();
            changed[place] ^= 0x41;
            assert_eq!(Image::new(image[..place].to_vec()), Err(Refusal::ImageRefused));
            let Ok(made) = Image::new(changed) else { continue };
            for k in 0..=made.functions() {
                let _ = (made.code(k), made.span(k, place));
            }
        }
        assert!(refused > 0);
        println!("damaged: {} trees and {} images, nothing panics", 2 * tree.len(), 2 * image.len());
    }
}
