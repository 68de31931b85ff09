//! The text form: there and back, and clear words for what is wrong.

use crate::common::{load, random_networks, refused};
use oracle::answer::Answer;
use oracle::file::write;
use oracle::generate;
use oracle::network::Network;
use oracle::random::Random;
use oracle::text::{of_network, parse};
use oracle::worked::ring_4_with_prefix;

#[test]
fn ring_4_as_text() {
    let text = "\
# a comment
routers 4

link 0 1 1 1   # another
link 1 2 1 1
  link 2 3 1 1
link 3 0 1 1
prefix 1:0 2:0
";
    assert_eq!(parse(text).expect("a good text").network, ring_4_with_prefix());
}

#[test]
fn from_text_to_file_to_network_and_back() {
    let mut random = Random::new(41);
    let mut networks = random_networks(20, 64, 42);
    networks.extend((0..20).map(|_| {
        let routers = random.between(1, 64);
        let links = random.below((routers * (routers - 1) / 2).min(128) + 1);
        generate::sized(routers, links, random.clone().below(129), &mut random)
    }));
    for network in networks {
        let text = of_network(&network);
        let file = parse(&text).and_then(|recipe| recipe.file()).expect("a good text");
        assert_eq!(file, write(&network));
        let Answer::Accepted(read) = load(&file) else {
            panic!("the file is refused");
        };
        assert_eq!(read, network);
        assert_eq!(of_network(&read), text);
    }
}

#[test]
fn limits_may_be_broken() {
    let broken =
        |text: &str| load(&parse(text).and_then(|recipe| recipe.file()).expect("a good text"));
    assert_eq!(broken("routers 65\n"), refused(3, 0));
    assert_eq!(broken("routers 2\nlink 0 1 1 0\n"), refused(6, 0));
    assert_eq!(broken("routers 1\nprefix\n"), refused(8, 0));
    assert_eq!(broken("routers 9\nprefix 0:1 1:1 2:1 3:1 4:1 5:1 6:1 7:1 8:1\n"), refused(8, 0));
    assert_eq!(broken("routers 1\nbyte 5 1\n"), refused(3, 0));
    assert_eq!(broken("routers 1\nlate 5 1\n"), refused(2, 0));
    assert_eq!(broken("routers 1\nlength 511\n"), refused(1, 0));
    assert_eq!(broken("routers 1\nlength 1024\n"), refused(4, 1));
}

#[test]
fn what_is_wrong_is_said() {
    let wrong = |text: &str| parse(text).and_then(|recipe| recipe.file()).expect_err("a bad text");
    let words = "the words are routers, link, prefix, byte, late, length";
    assert_eq!(wrong("routers 2\nlnk 0 1 1 1\n"), format!("line 2: unknown word `lnk`; {words}"));
    assert_eq!(wrong("routers\n"), "line 1: found 0 numbers, expected: routers N");
    assert_eq!(wrong("routers 256\n"), "line 1: 256 does not fit into 8 bits");
    assert_eq!(wrong("routers -1\n"), "line 1: `-1` is no number");
    assert_eq!(wrong("routers +1\n"), "line 1: `+1` is no number");
    assert_eq!(wrong("routers 1\nrouters 1\n"), "line 2: routers is given a second time");
    assert_eq!(wrong(""), "no line gives the number of routers");
    assert_eq!(
        wrong("routers 2\nlink 0 1 1\n"),
        "line 2: found 3 numbers, expected: link A B COST-A-TO-B COST-B-TO-A"
    );
    assert_eq!(wrong("link 0 1 65536 1\n"), "line 1: 65536 does not fit into 16 bits");
    assert_eq!(wrong("prefix 1\n"), "line 1: `1` is no attachment, expected: ROUTER:COST");
    assert_eq!(wrong("prefix 1:x\n"), "line 1: `x` is no number");
    assert_eq!(wrong("prefix :1\n"), "line 1: `` is no number");
    assert_eq!(wrong("routers 1\nbyte 512 0\n"), "offset 512 is not in the file of 512 bytes");
}

#[test]
fn a_network_has_one_text() {
    let network = Network::of_routers(2).link(1, 0, 3, 4).prefix(&[(1, 2), (0, 65_535)]);
    assert_eq!(of_network(&network), "routers 2\nlink 1 0 3 4\nprefix 1:2 0:65535\n");
}

#[test]
fn a_text_says_which_links_are_under_maintenance() {
    let network = Network::of_routers(3)
        .link(1, 0, 65_535, 65_534)
        .link(1, 2, 1, 65_535)
        .link(2, 0, 65_535, 65_535)
        .prefix(&[(1, 65_535)]);
    let text = "\
routers 3
link 1 0 65535 65534  # under maintenance from 1 to 0
link 1 2 1 65535  # under maintenance from 2 to 1
link 2 0 65535 65535  # under maintenance both ways
prefix 1:65535
";
    assert_eq!(of_network(&network), text);
    assert_eq!(parse(text).expect("a good text").network, network);
}
