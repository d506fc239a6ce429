//! #101's list, each range by its ends and by how many bytes it has.

use crate::command_class as class;
use crate::CommandClass::{self, Close, Listen, Open, Other, Secondary, Talk, Unlisten, Untalk};

#[test]
fn ends_of_the_ranges() {
    assert_eq!((class(0x00), class(0x1F)), (Other, Other));
    assert_eq!((class(0x20), class(0x3E)), (Listen, Listen));
    assert_eq!(class(0x3F), Unlisten);
    assert_eq!((class(0x40), class(0x5E)), (Talk, Talk));
    assert_eq!(class(0x5F), Untalk);
    assert_eq!((class(0x60), class(0x6F)), (Secondary, Secondary));
    assert_eq!((class(0x70), class(0xDF)), (Other, Other));
    assert_eq!((class(0xE0), class(0xEF)), (Close, Close));
    assert_eq!((class(0xF0), class(0xFF)), (Open, Open));
}

#[test]
fn bytes_in_each_class() {
    let many = |wanted: CommandClass| {
        let all = (0..=0xFF).map(class);
        all.filter(|class| *class == wanted).count()
    };
    assert_eq!((many(Listen), many(Unlisten)), (31, 1));
    assert_eq!((many(Talk), many(Untalk)), (31, 1));
    assert_eq!((many(Secondary), many(Close), many(Open)), (16, 16, 16));
    assert_eq!(many(Other), 32 + 112);
}
