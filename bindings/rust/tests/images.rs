//! What an image is made of: owned, borrowed and shared bytes, bytes that change, threads, and what is printed of it.

mod common;

use std::cell::Cell;
use std::collections::HashSet;
use std::rc::Rc;
use std::sync::Arc;
use std::thread;

use common::{image_of, image_of_t, image_of_t_with_metres, image_with_metres_of, metres, path, random, T};
#[cfg(feature = "alloc")]
use parlaqen::{seal, Pack, TreeString, TreeText};
use parlaqen::{size, Answer, Error, Image, Listing, Node, Nodes, Question, Seal, BLOCK_BYTES, MOST_IMAGE_BYTES};

fn node(number: u32) -> Node {
    Node::new(number).unwrap()
}

#[test]
fn an_image_owns_borrows_or_shares_its_bytes() {
    fn tried<B: AsRef<[u8]>>(bytes: B) -> Image<B> {
        let image = Image::check(bytes).unwrap();
        assert_eq!((image.nodes(), image.nodes_with_children()), (7, 3));
        assert_eq!(image.as_bytes(), image_of_t());
        assert_eq!(image.parent(node(7)).unwrap(), Node::new(4));
        assert_eq!(image.children(Node::ROOT).unwrap().len(), 3);
        image
    }
    let bytes = image_of_t();
    let array: [u8; 5 * BLOCK_BYTES] = bytes.clone().try_into().unwrap();

    let borrowed: &[u8] = tried(&bytes[..]).into_bytes();
    assert_eq!(borrowed, bytes);
    let owned: Vec<u8> = tried(bytes.clone()).into_bytes();
    assert_eq!(owned, bytes);
    let in_place: [u8; 5 * BLOCK_BYTES] = tried(array).into_bytes();
    assert_eq!(in_place[..], bytes);
    let boxed: Box<[u8]> = tried(bytes.clone().into_boxed_slice()).into_bytes();
    assert_eq!(boxed[..], bytes);
    let shared: Arc<[u8]> = tried(Arc::from(&bytes[..])).into_bytes();
    assert_eq!(shared[..], bytes);
    tried(&array);
    tried(&bytes);

    let copied = tried(&bytes[..]);
    let again = copied;
    assert_eq!(copied, again);
    assert_eq!(copied.as_ref(), bytes);
    let screens = [tried(bytes.clone()), tried(bytes.clone()).clone()];
    assert_eq!(screens[0], screens[1]);
}

#[test]
fn images_are_equal_by_their_bytes_in_whatever_they_are() {
    let bytes = image_of_t();
    let (owned, shared) = (Image::check(bytes.clone()).unwrap(), Image::check(Arc::<[u8]>::from(&bytes[..])).unwrap());
    let borrowed = Image::check(&bytes[..]).unwrap();
    assert_eq!(owned, borrowed);
    assert_eq!(borrowed, shared);
    assert_eq!(shared, owned);
    let other = Image::check(image_of(&[0, 1])).unwrap();
    assert_ne!(borrowed, other);

    let mut found = HashSet::from([owned.clone()]);
    assert!(!found.insert(owned));
    assert!(found.insert(other));
}

#[test]
fn an_image_sealed_in_a_lent_buffer_is_over_its_used_part() {
    for parents in [vec![0], T.to_vec(), path(4_000), common::star(8_065), random(5_000, 3)] {
        let mut room = vec![0xEE; MOST_IMAGE_BYTES + 1];
        let image = Image::seal_in(&parents, &mut room).unwrap();
        assert_eq!(image.as_bytes(), image_of(&parents));
        assert_eq!(image, Image::check(image.as_bytes()).unwrap());
        let used = image.into_bytes().len();
        assert!(room[used..].iter().all(|byte| *byte == 0xEE));
        #[cfg(feature = "alloc")]
        assert_eq!(seal(&parents).unwrap().as_bytes(), &room[..used]);

        let metres = metres(parents.len());
        let mut room = vec![0xEE; MOST_IMAGE_BYTES + 1];
        let sealing = Seal::of(&parents).metres(&metres);
        let image = sealing.image_in(&mut room).unwrap();
        assert_eq!(image.as_bytes(), image_with_metres_of(&parents, &metres));
        assert_eq!(image, Image::check(image.as_bytes()).unwrap());
        let used = image.into_bytes().len();
        assert!(room[used..].iter().all(|byte| *byte == 0xEE));
        #[cfg(feature = "alloc")]
        assert_eq!(sealing.image().unwrap().as_bytes(), &room[..used]);
    }
    /// What needs no bytes is there for an image of anything.
    const fn nodes<B>(image: &Image<B>) -> (u32, u32, bool) {
        (image.nodes(), image.nodes_with_children(), image.all_nodes().contains(Node::ROOT))
    }
    const ROOM: usize = size::image_room(7);
    assert_eq!(nodes(&Image::seal_in(&T, &mut [0; ROOM]).unwrap()), (7, 3, true));
    assert_eq!(Image::seal_in(&T, &mut [0; ROOM]).unwrap().nodes(), 7);
}

/// Bytes that are other ones when another tree is chosen.
#[derive(Clone)]
struct Changing {
    images: Rc<[Vec<u8>]>,
    chosen: Rc<Cell<usize>>,
}

impl AsRef<[u8]> for Changing {
    fn as_ref(&self) -> &[u8] {
        &self.images[self.chosen.get()]
    }
}

#[test]
fn bytes_that_change_after_the_check_do_no_harm() {
    let mut damaged = image_of_t();
    damaged[2 * BLOCK_BYTES] ^= 4;
    let images = Rc::from([
        image_of_t(),
        image_of(&[0, 1, 2]),
        damaged,
        vec![],
        image_of(&path(65_535)),
        image_of_t_with_metres(),
        image_with_metres_of(&path(65_535), &metres(65_535)),
    ]);
    let chosen = Rc::new(Cell::new(0));
    let image = Image::check(Changing { images, chosen: chosen.clone() }).unwrap();
    assert_eq!(image.parent(node(3)).unwrap(), Node::new(1));

    chosen.set(1);
    assert_eq!(image.parent(node(3)).unwrap(), Node::new(2));
    assert_eq!(image.parent(node(7)), Err(Error::NoSuchNode { node: 7 }));
    // what was counted by the check stays
    assert_eq!((image.nodes(), image.nodes_with_children(), image.all_nodes().len()), (7, 3, 7));
    #[cfg(feature = "alloc")]
    assert_eq!(image.parents().unwrap(), [0, 1, 2]);

    chosen.set(2);
    let refused = Error::WrongSums { block: 2 };
    assert_eq!(image.parent(node(3)), Err(refused));
    assert_eq!(image.children(node(1)), Err(refused));
    assert_eq!(image.ask_into(&[Question::Parent(Node::ROOT)], &mut [Answer::default()]), Err(refused));
    assert_eq!(image.ask_into(&[], &mut []), Err(refused));
    assert_eq!(image.list_in(Node::ROOT, &mut [0; 14]).unwrap_err(), refused);
    #[cfg(feature = "alloc")]
    assert_eq!(image.ask(&[]), Err(refused));

    chosen.set(3);
    assert_eq!(image.degree(Node::ROOT).unwrap_err().code(), 2);

    chosen.set(4);
    assert_eq!(image.parent(node(65_535)).unwrap(), Node::new(65_534));
    assert_eq!(image.list_in(node(65_000), &mut [0; 14]).unwrap_err(), Error::TooDeep { node: 65_064 });
    #[cfg(feature = "alloc")]
    assert_eq!((image.parents(), image.metres()), (Err(Error::NoRoom), Ok(None)));

    let asked = [Question::Metres(node(7))];
    let mut answers = [Answer::default()];
    assert_eq!(image.ask_into(&asked, &mut answers), Err(Error::NoMetresAsked { question: 1 }));
    chosen.set(5);
    assert_eq!(image.ask_into(&asked, &mut answers), Ok(&[Answer::Number(70)][..]));
    #[cfg(feature = "alloc")]
    assert_eq!(image.metres(), Ok(Some(common::METRES_OF_T.to_vec())));

    chosen.set(6);
    #[cfg(feature = "alloc")]
    assert_eq!(image.metres(), Err(Error::NoRoom));
    chosen.set(2);
    assert_eq!(image.ask_into(&asked, &mut answers), Err(refused));
    #[cfg(feature = "alloc")]
    assert_eq!(image.metres(), Err(refused));
}

/// Bytes that are other ones at every call: those of the images, in turn.
struct Turning {
    images: Vec<Vec<u8>>,
    calls: Rc<Cell<usize>>,
}

impl AsRef<[u8]> for Turning {
    fn as_ref(&self) -> &[u8] {
        let call = self.calls.replace(self.calls.get() + 1);
        &self.images[call % self.images.len()]
    }
}

/// In one tree the parent of node 3 is the root, in the other it is node 2, and the third image is none: an answer that
/// is put together from two of them would be that of no tree.
#[test]
fn every_method_asks_for_its_bytes_once() {
    let mut damaged = image_of_t();
    damaged[2 * BLOCK_BYTES] ^= 4;
    let calls = Rc::new(Cell::new(0));
    let star_with_metres = image_with_metres_of(&[0, 1, 1, 1, 1], &[9, 8, 7, 6, 5]);
    let images = vec![star_with_metres.clone(), image_of(&[0, 1, 2, 2, 2]), damaged];
    let refused = Error::WrongSums { block: 2 };
    let image = Image::check(Turning { images, calls: calls.clone() }).unwrap();
    assert_eq!(calls.get(), 1);

    let numbers = |nodes: Nodes| nodes.map(Node::get).collect::<Vec<u32>>();
    /// Makes a call with each of the three images, and sees that none of them asks for its bytes twice.
    macro_rules! in_turn {
        ($call:expr, $of_star:expr, $of_path:expr) => {
            for (turn, expected) in [Ok($of_star), Ok($of_path), Err(refused)].into_iter().enumerate() {
                calls.set(turn);
                assert_eq!($call, expected, "{}, image {turn}", stringify!($call));
                assert_eq!(calls.get(), turn + 1, "{}", stringify!($call));
            }
        };
    }
    let three = node(3);
    in_turn!(image.parent(three), Node::new(1), Node::new(2));
    in_turn!(image.first_child(Node::ROOT), Node::new(2), Node::new(2));
    in_turn!(image.last_child(Node::ROOT), Node::new(5), Node::new(2));
    in_turn!(image.next_sibling(node(2)), Node::new(3), None);
    in_turn!(image.previous_sibling(three), Node::new(2), None);
    in_turn!(image.degree(Node::ROOT), 4, 1);
    in_turn!(image.child_rank(three), Some(2), Some(1));
    in_turn!(image.child(Node::ROOT, 2), Node::new(3), None);
    in_turn!(image.sibling_at(three, -1), Node::new(2), None);
    in_turn!(image.is_leaf(node(2)), true, false);
    in_turn!(image.children(Node::ROOT).map(numbers), vec![2, 3, 4, 5], vec![2]);
    in_turn!(image.siblings(three).map(numbers), vec![2, 3, 4, 5], vec![3, 4, 5]);
    let asked = [Question::Parent(three)];
    let (star, path) = (Answer::Node(Node::new(1)), Answer::Node(Node::new(2)));
    in_turn!(image.ask_into(&asked, &mut [Answer::default()]).map(<[Answer]>::to_vec), vec![star], vec![path]);
    let listed = |listing: Listing<&[u32]>| listing.map(|listed| listed.depth).collect::<Vec<u32>>();
    in_turn!(image.list_in(Node::ROOT, &mut [0; 10]).map(listed), vec![0, 1, 1, 1, 1], vec![0, 1, 2, 2, 2]);
    #[cfg(feature = "alloc")]
    {
        for count in [0, 1, 256, 257, 1_000] {
            in_turn!(image.ask(&vec![asked[0]; count]), vec![star; count], vec![path; count]);
        }
        let listed = |listing: Listing<Vec<u32>>| listing.map(|listed| listed.depth).collect::<Vec<u32>>();
        in_turn!(image.list(Node::ROOT).map(listed), vec![0, 1, 1, 1, 1], vec![0, 1, 2, 2, 2]);
        in_turn!(image.parents(), vec![0, 1, 1, 1, 1], vec![0, 1, 2, 2, 2]);
        in_turn!(image.metres(), Some(vec![9, 8, 7, 6, 5]), None);
    }
    let asked = [Question::Metres(three)];
    for (turn, expected) in [Ok(7), Err(Error::NoMetresAsked { question: 1 }), Err(refused)].into_iter().enumerate() {
        calls.set(turn);
        let answered = image.ask_into(&asked, &mut [Answer::default()]).map(<[Answer]>::to_vec);
        assert_eq!(answered, expected.map(|metres| vec![Answer::Number(metres)]), "image {turn}");
        assert_eq!(calls.get(), turn + 1);
    }

    calls.set(0);
    assert_eq!(format!("{image:?}"), "Image { nodes: 5, nodes_with_children: 1, bytes: 3072, .. }");
    assert_eq!(calls.get(), 1);
    calls.set(0);
    let star = Image::check(star_with_metres).unwrap();
    assert!(image == star && calls.get() == 1);
    assert!(image != star && calls.get() == 2);

    // what the check found is kept and asks for no bytes
    calls.set(0);
    assert_eq!((image.nodes(), image.nodes_with_children(), image.all_nodes().len()), (5, 1, 5));
    assert_eq!(calls.get(), 0);
}

#[test]
fn everything_goes_to_other_threads() {
    fn sent<T: Send + Sync + 'static>() {}
    sent::<Image<Vec<u8>>>();
    sent::<Image<&'static [u8]>>();
    sent::<Image<Arc<[u8]>>>();
    sent::<Image<[u8; 2_560]>>();
    sent::<Node>();
    sent::<Nodes>();
    sent::<Listing<Vec<u32>>>();
    sent::<Listing<&'static [u32]>>();
    sent::<Error>();
    sent::<Question>();
    sent::<Answer>();
    sent::<Seal<'static>>();
    #[cfg(feature = "alloc")]
    {
        sent::<TreeString>();
        sent::<Pack>();
        sent::<TreeText>();
    }
}

#[test]
fn sixteen_threads_ask_one_image() {
    let (parents, metres) = (random(3_000, 5), metres(3_000));
    let image = Image::check(image_with_metres_of(&parents, &metres)).unwrap();
    thread::scope(|scope| {
        for thread in 0..16 {
            let (image, parents, metres) = (&image, &parents, &metres);
            scope.spawn(move || {
                for node in image.all_nodes().skip(thread).step_by(16) {
                    assert_eq!(image.parent(node).unwrap(), Node::new(parents[node.index()]));
                    assert!(image.siblings(node).unwrap().contains(node));
                    let mut answers = [Answer::default()];
                    image.ask_into(&[Question::Metres(node)], &mut answers).unwrap();
                    assert_eq!(answers, [Answer::Number(metres[node.index()])]);
                }
                #[cfg(feature = "alloc")]
                assert_eq!((image.parents(), image.metres()), (Ok(parents.clone()), Ok(Some(metres.clone()))));
            });
        }
    });
}

#[test]
fn what_is_printed_for_programmers_is_short() {
    let largest = Image::check(image_with_metres_of(&path(65_535), &metres(65_535))).unwrap();
    assert_eq!(format!("{largest:?}"), "Image { nodes: 65535, nodes_with_children: 65534, bytes: 293888, .. }");
    let image = Image::check(image_of_t()).unwrap();
    assert_eq!(format!("{image:?}"), "Image { nodes: 7, nodes_with_children: 3, bytes: 2560, .. }");
    assert_eq!(format!("{:?}", image.children(Node::ROOT).unwrap()), "Nodes(2..5)");
    let mut numbers = [0; 14];
    let mut listing = image.list_in(Node::ROOT, &mut numbers).unwrap();
    listing.next();
    assert_eq!(format!("{listing:?}"), "Listing { nodes_left: 6, .. }");
    let (parents, metres) = (path(65_535), metres(65_535));
    let sealing = Seal::of(&parents);
    assert_eq!(format!("{sealing:?}"), "Seal { nodes: 65535, metres: None, .. }");
    assert_eq!(format!("{:?}", sealing.metres(&metres)), "Seal { nodes: 65535, metres: Some(65535), .. }");
    #[cfg(feature = "alloc")]
    {
        let mut pack = Pack::new();
        pack.join(&T).unwrap();
        pack.join(&path(60_000)).unwrap();
        assert_eq!(format!("{pack:?}"), "Pack { trees: 2, bits: 120016, .. }");
        let string = TreeString::of_parents(&path(60_000)).unwrap();
        assert_eq!(format!("{string:?}"), "TreeString { nodes: 60000, bits: 120001, .. }");
    }
}
