//! Trees as parenthesis text: every tree comes back, blanks mean nothing, and what is not one tree
//! is refused at its byte.

mod common;

use common::{binary, path, random, star, T};
use parlaqen::calls::{parents_of_text, text_of_parents};
#[cfg(feature = "alloc")]
use parlaqen::{seal, TreeText};
use parlaqen::{size, Error, Result, WrongSize, MOST_NODES, MOST_TEXT};

const TEXT_OF_T: &str = "((()())()(()))";

/// A tree on so many levels, or on as many as it has nodes: a path down to the last level but one,
/// and all other nodes on the last.
fn levelled(nodes: u32, levels: u32) -> Vec<u32> {
    (0..nodes).map(|i| i.min(levels - 1)).collect()
}

/// Trees that have a text, of several shapes and sizes, the largest included.
fn trees() -> Vec<Vec<u32>> {
    let most = MOST_NODES as u32;
    let mut trees = vec![vec![0], T.to_vec(), path(64), star(4_000), binary(8_065), star(most), binary(most)];
    trees.extend((1..=64).map(|levels| levelled(200, levels.max(2))));
    trees.extend((0..50).map(|seed| random(1 + 7 * seed, u64::from(seed))).filter(|parents| text(parents).is_ok()));
    trees.push(levelled(most, 64));
    trees
}

/// The text of a parent list, written into exactly the room that it needs.
fn text(parents: &[u32]) -> Result<Vec<u8>> {
    let mut text = vec![0xA5; size::text_bytes(parents.len())];
    let bytes = text_of_parents(parents, &mut text)?;
    assert_eq!(bytes, text.len());
    Ok(text)
}

/// The parents of a text, read into as much room as any text of its length may need.
fn parents(text: &[u8]) -> Result<Vec<u32>> {
    let mut parents = vec![77; (text.len() / 2).min(MOST_NODES)];
    let nodes = parents_of_text(text, &mut parents)?;
    assert!(parents[nodes..].iter().all(|number| *number == 77));
    parents.truncate(nodes);
    Ok(parents)
}

/// The refusal of a text, in every room: none of its numbers changes.
fn refused(text: &[u8]) -> Error {
    let errors = [0, 1, 7, 20].map(|room| {
        let mut parents = vec![77; room];
        let error = parents_of_text(text, &mut parents).unwrap_err();
        assert!(parents.iter().all(|number| *number == 77));
        error
    });
    assert!(errors.iter().all(|error| *error == errors[0]), "{errors:?}");
    #[cfg(feature = "alloc")]
    {
        assert_eq!(TreeText::received(text.to_vec()), Err(errors[0]));
        if let Ok(text) = std::str::from_utf8(text) {
            assert_eq!(text.parse::<TreeText>(), Err(errors[0]));
        }
    }
    errors[0]
}

/// The same text with blanks by chance before each of its bytes and after the last.
fn with_blanks(text: &[u8], seed: u64) -> Vec<u8> {
    let mut state = seed;
    let mut below = |end: u64| {
        state = state.wrapping_mul(6_364_136_223_846_793_005).wrapping_add(1_442_695_040_888_963_407);
        (state >> 33) % end
    };
    let mut blanked = vec![];
    for byte in text.iter().map(Some).chain([None]) {
        for _ in 0..below(4) {
            blanked.push(b" \n\r"[below(3) as usize]);
        }
        blanked.extend(byte);
    }
    blanked
}

#[test]
fn t_has_the_text_of_the_page() {
    assert_eq!(text(&T).unwrap(), TEXT_OF_T.as_bytes());
    assert_eq!(parents(TEXT_OF_T.as_bytes()).unwrap(), T);
    assert_eq!(parents(b"(\n  (() ())\r\n  ()\r\n  (())\n)\n").unwrap(), T);
}

#[test]
fn every_tree_comes_back_from_its_text_with_blanks_or_without() {
    for (seed, tree) in (0..).zip(trees()) {
        let text = text(&tree).unwrap();
        assert_eq!(parents(&text).unwrap(), tree);
        assert_eq!(parents(&with_blanks(&text, seed)).unwrap(), tree);
    }
}

#[cfg(feature = "alloc")]
#[test]
fn a_text_is_brackets_alone_whatever_blanks_it_came_with() {
    for (seed, tree) in (0..).zip(trees()) {
        let written = TreeText::of_parents(&tree).unwrap();
        assert_eq!(written.as_bytes(), text(&tree).unwrap());
        assert_eq!((written.nodes() as usize, written.as_str().len()), (tree.len(), 2 * tree.len()));
        assert_eq!(written.parents().unwrap(), tree);

        let blanked = String::from_utf8(with_blanks(written.as_bytes(), seed)).unwrap();
        let read: TreeText = blanked.parse().unwrap();
        assert_eq!(read, written);
        assert_eq!(TreeText::received(blanked.clone().into_bytes()).unwrap(), written);
        assert_eq!(read.to_string(), blanked.replace([' ', '\n', '\r'], ""));
        assert_eq!((read.as_str(), AsRef::<str>::as_ref(&read)), (written.as_str(), written.as_str()));
        assert_eq!(AsRef::<[u8]>::as_ref(&read), written.as_bytes());
        assert_eq!(read.clone().into_string(), String::from(read));
    }
}

#[cfg(feature = "alloc")]
#[test]
fn a_text_is_sealed_and_an_image_is_written() {
    let read: TreeText = TEXT_OF_T.parse().unwrap();
    let image = seal(&read.parents().unwrap()).unwrap();
    assert_eq!(image, seal(&T).unwrap());
    assert_eq!(TreeText::of_parents(&image.parents().unwrap()).unwrap(), read);
    // the brackets that open are the nodes of the listing, in this order
    let listed: Vec<u32> = image.list(parlaqen::Node::ROOT).unwrap().map(|listed| listed.node.get()).collect();
    assert_eq!(listed, [1, 2, 5, 6, 3, 4, 7]);
}

#[cfg(feature = "alloc")]
#[test]
fn texts_are_shown_and_sorted_out_as_others_are() {
    let [one, same, other] = ["(()())", "( () () )", "((()))"].map(|text| text.parse::<TreeText>().unwrap());
    assert_eq!(one, same);
    assert_ne!(one, other);
    let mut found = std::collections::HashSet::from([one.clone()]);
    assert!(!found.insert(same));
    assert!(found.insert(other));
    assert_eq!(format!("{one}"), "(()())");
    assert_eq!(format!("{one:>8}."), "  (()()).");
    assert_eq!(format!("{one:?}"), "TreeText { nodes: 3, .. }");
}

#[test]
fn what_is_not_one_tree_is_refused_at_its_byte() {
    for (text, byte) in [
        ("", 1),
        (" ", 2),
        ("\n\r ", 4),
        ("(", 2),
        (")", 1),
        ("x", 1),
        ("(()", 4),
        ("()(", 3),
        ("())", 3),
        ("()()", 3),
        ("() x", 4),
        ("( ) )", 5),
        ("(x)", 2),
        ("(\t)", 2),
        ("(\0)", 2),
        ("()\0", 3),
        ("\u{FEFF}()", 1),
        ("(\u{A0})", 2),
        ("[]", 1),
    ] {
        assert_eq!(refused(text.as_bytes()), Error::NotText { byte }, "{text:?}");
    }
    for byte in (0..=u8::MAX).filter(|byte| !b" \n\r()".contains(byte)) {
        assert_eq!(refused(&[b'(', b' ', byte, b')']), Error::NotText { byte: 3 }, "byte {byte}");
        assert_eq!(refused(&[b'(', b')', byte]), Error::NotText { byte: 3 }, "byte {byte}");
    }
    for cut in 0..TEXT_OF_T.len() {
        assert_eq!(refused(&TEXT_OF_T.as_bytes()[..cut]), Error::NotText { byte: cut as u32 + 1 });
    }
}

#[test]
fn a_changed_byte_is_refused_or_leaves_the_tree_as_it_was() {
    let text = b"( (()())\n()\r(()) )";
    for at in 0..text.len() {
        for byte in 0..=u8::MAX {
            let mut changed = *text;
            changed[at] = byte;
            let blanks = [text[at], byte].iter().all(|byte| b" \n\r".contains(byte));
            if byte == text[at] || blanks {
                assert_eq!(parents(&changed).unwrap(), T);
            } else {
                assert!(matches!(refused(&changed), Error::NotText { .. }));
            }
        }
    }
}

#[test]
fn a_65th_level_is_refused_at_the_byte_that_opens_it() {
    let nested = |levels: usize, then: &str| ["(".repeat(levels), then.to_string(), ")".repeat(levels)].concat();
    assert_eq!(parents(nested(64, "").as_bytes()).unwrap(), path(64));
    assert_eq!(refused(nested(64, "x").as_bytes()), Error::NotText { byte: 65 });
    for then in ["", "x", " ", "()", ")))"] {
        assert_eq!(refused(nested(65, then).as_bytes()), Error::TooNested { byte: 65 }, "{then:?}");
        assert_eq!(refused(nested(99, then).as_bytes()), Error::TooNested { byte: 65 }, "{then:?}");
    }
    assert_eq!(refused(format!(" \n{}", nested(65, "")).as_bytes()), Error::TooNested { byte: 67 });
    assert_eq!(refused("(".repeat(64).as_bytes()), Error::NotText { byte: 65 });
    assert_eq!(refused("(".repeat(65).as_bytes()), Error::TooNested { byte: 65 });
    assert_eq!(refused("(".repeat(MOST_TEXT).as_bytes()), Error::TooNested { byte: 65 });
}

#[test]
fn too_many_bytes_go_before_all_and_too_many_nodes_after_what_is_wrong() {
    let mut long = vec![b' '; MOST_TEXT + 1];
    let too_long = |bytes| Error::WrongSize(WrongSize::TextTooLong { bytes });
    assert_eq!(refused(&long), too_long(1_048_577));
    assert_eq!(refused(&long[..MOST_TEXT]), Error::NotText { byte: 1_048_577 });
    long[77..79].copy_from_slice(b"()");
    assert_eq!(refused(&long), too_long(1_048_577));
    assert_eq!(parents(&long[..MOST_TEXT]).unwrap(), [0]);
    assert_eq!(refused(&vec![b'('; 2 * MOST_TEXT]), too_long(2_097_152));

    let bush = |nodes: usize| format!("({})", "()".repeat(nodes - 1));
    assert_eq!(parents(bush(65_535).as_bytes()).unwrap(), star(65_535));
    let too_many = Error::WrongSize(WrongSize::TextNodes { nodes: 65_536 });
    assert_eq!(refused(bush(65_536).as_bytes()), too_many);
    assert_eq!(refused(format!("\r\n{}\r\n", bush(65_536)).as_bytes()), too_many);
    assert_eq!(refused(format!("{})", bush(65_536)).as_bytes()), Error::NotText { byte: 131_073 });
    let nested = format!("({}{})", bush(65_536), ["(".repeat(64), ")".repeat(64)].concat());
    assert_eq!(refused(nested.as_bytes()), Error::TooNested { byte: 131_137 });
}

#[test]
fn too_little_room_for_parents_is_refused_last() {
    for room in 0..7 {
        let mut parents = vec![77; room];
        assert_eq!(parents_of_text(TEXT_OF_T.as_bytes(), &mut parents), Err(Error::NoRoom));
        assert_eq!(parents, vec![77; room]);
    }
    let mut parents = [77; 9];
    assert_eq!(parents_of_text(TEXT_OF_T.as_bytes(), &mut parents), Ok(7));
    assert_eq!(parents[7..], [77, 77]);
}

#[test]
fn writing_refuses() {
    let written = |parents: &[u32], room| {
        let mut text = vec![0xA5; room];
        let error = text_of_parents(parents, &mut text).unwrap_err();
        assert!(text.iter().all(|byte| *byte == 0xA5));
        #[cfg(feature = "alloc")]
        assert!(error == Error::NoRoom || TreeText::of_parents(parents) == Err(error));
        error
    };
    let wrong_nodes = |nodes| Error::WrongSize(WrongSize::Nodes { nodes });
    assert_eq!(written(&[], 9), wrong_nodes(0));
    assert_eq!(written(&[0; MOST_NODES + 1], 200_000), wrong_nodes(65_536));
    assert_eq!(written(&[1], 9), Error::NotParents { entry: 1 });
    assert_eq!(written(&[0, 1, 2, 1], 9), Error::NotParents { entry: 4 });
    for room in 0..14 {
        assert_eq!(written(&T, room), Error::NoRoom);
    }
    for (parents, room) in [(path(65), 0), (path(65), 130), (path(65_535), 131_070), (levelled(70, 66), 140)] {
        assert_eq!(written(&parents, room), Error::TooDeep { node: 65 });
    }
    // with two nodes on the second level, the first one at depth 64 is number 66
    let mut beside: Vec<u32> = path(66).iter().map(|parent| parent + u32::from(*parent > 1)).collect();
    beside.insert(2, 1);
    assert_eq!(written(&beside, 200), Error::TooDeep { node: 66 });
    // no parent list goes before too deep
    let mut deep = path(70);
    deep[69] = 70;
    assert_eq!(written(&deep, 140), Error::NotParents { entry: 70 });

    let mut text = [0xA5; 16];
    assert_eq!(text_of_parents(&T, &mut text), Ok(14));
    assert_eq!((&text[..14], &text[14..]), (TEXT_OF_T.as_bytes(), &[0xA5, 0xA5][..]));
}
