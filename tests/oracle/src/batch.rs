//! All questions about one file, one line for each answer.
//!
//! The lines, in this order:
//!
//! ```text
//! load ANSWER
//! link-entry LINK ANSWER                         every link, and the first number too large
//! prefix-entry PREFIX ANSWER                     every prefix, and the first number too large
//! distances ANSWER
//! row START DISTANCE ...                         every router as start
//! p LINK END ANSWER                              every link and end
//! extended-p LINK END ANSWER
//! q LINK END ANSWER
//! link-repair LINK END ANSWER                    every link and end
//! prefix-repair LINK END PREFIX ANSWER           every link, end and prefix
//! route LINK END PREFIX STRING ANSWER            the same, for every choice string
//! ```
//!
//! An answer is `refused NUMBER VALUE`, `accepted N L PREFIXES`, `empty`,
//! `at OFFSET bytes BYTE ...`, `done`, `set NUMBER`, `unreachable`, `untouched`,
//! `pair HOP ENDPOINT CLASS COST` or `count COUNT route ROUTER ...`. The choice
//! strings have numbers: 0 is empty, 1 is the byte 1, 2 is 128 times the byte
//! 1, 3 is the bytes 0, 1, 2 and so on to 127, 4 is 255, 254, 253 and so on
//! down to 128. After the questions of a section come those whose link, end or
//! prefix is just too large. The repairs and routes have one table of ranks.

use crate::answer::{Answer, Buffers, Opened, Question};
use crate::distance::UNREACHABLE;
use crate::fault::Context;
use crate::file::{Bytes, Head, MOST_ROUTERS};
use crate::space::Space;
use crate::words;

listed! {
    /// A part of the batch.
    pub enum Section {
        Load: "load",
        Entries: "entries",
        Distances: "distances",
        Spaces: "spaces",
        Links: "links",
        Prefixes: "prefixes",
        Routes: "routes",
    }
}

impl Section {
    /// The section of a name.
    pub fn named(name: &str) -> Option<Section> {
        Section::ALL.iter().copied().find(|section| section.words() == name)
    }
}

/// The choice strings of the batch.
pub fn choice_strings() -> Vec<Vec<u8>> {
    vec![Vec::new(), vec![1], vec![1; 128], (0..128).collect(), (128..=255).rev().collect()]
}

/// Buffers that are enough for any file, filled with numbers that no call
/// writes: each cell is one less than unreachable, each byte is 255.
pub fn enough() -> Buffers {
    let cells = MOST_ROUTERS * MOST_ROUTERS;
    let (work, route) = (vec![UNREACHABLE - 1; cells], vec![255; 2 * MOST_ROUTERS]);
    Buffers { work, route, ..Buffers::default() }
}

/// The lines of some sections, with a newline after each.
pub fn lines(ctx: &Context, file: &[u8], ranks: &[u8], sections: &[Section]) -> String {
    let (opened, head) = (Opened::new(ctx, file), Head::of(Bytes(file)));
    let mut batch = Batch { opened, head, ranks, lent: enough(), text: String::new() };
    if matches!(batch.opened.ask(&Question::Load, &batch.lent).answer, Answer::Refused { .. }) {
        // The counts of a refused file mean nothing: one question of each kind.
        batch.head = Head { routers: 0, links: 0, prefixes: 0 };
    }
    for section in sections {
        match section {
            Section::Load => batch.ask("load", &Question::Load),
            Section::Entries => batch.entries(),
            Section::Distances => batch.distances(),
            Section::Spaces => batch.spaces(),
            Section::Links => batch.links(),
            Section::Prefixes => batch.prefixes(),
            Section::Routes => batch.routes(),
        }
    }
    batch.text
}

struct Batch<'a> {
    opened: Opened<'a>,
    head: Head,
    ranks: &'a [u8],
    lent: Buffers,
    text: String,
}

impl Batch<'_> {
    fn ask(&mut self, label: &str, question: &Question) {
        let outcome = self.opened.ask(question, &self.lent);
        self.line(label, &words::short(&outcome));
    }

    fn line(&mut self, label: &str, rest: &str) {
        self.text.push_str(label);
        self.text.push(' ');
        self.text.push_str(rest);
        self.text.push('\n');
    }

    fn entries(&mut self) {
        for link in 0..=self.head.links as u64 {
            self.ask(&format!("link-entry {link}"), &Question::LinkEntry { link });
        }
        for prefix in 0..=self.head.prefixes as u64 {
            self.ask(&format!("prefix-entry {prefix}"), &Question::PrefixEntry { prefix });
        }
    }

    fn distances(&mut self) {
        let outcome = self.opened.ask(&Question::Distances, &self.lent);
        self.line("distances", &words::short(&outcome));
        for row in words::rows(&outcome, self.head.routers) {
            self.text.push_str(&row);
            self.text.push('\n');
        }
    }

    /// Every link and end, then the first link that is too large and, if there
    /// is a link, the first end that is.
    fn link_ends(&self) -> Vec<(u64, u64)> {
        let links = self.head.links as u64;
        let valid = (0..links).flat_map(|link| [(link, 0), (link, 1)]);
        let end_over = (links > 0).then_some((0, 2));
        valid.chain([(links, 0)]).chain(end_over).collect()
    }

    /// Every link, end and prefix, then each of the three just too large.
    fn link_end_prefixes(&self) -> Vec<(u64, u64, u64)> {
        let (links, prefixes) = (self.head.links as u64, self.head.prefixes as u64);
        let ends = (0..links).flat_map(|link| [(link, 0), (link, 1)]);
        let valid =
            ends.flat_map(|(link, end)| (0..prefixes).map(move |prefix| (link, end, prefix)));
        let prefix_over = (links > 0).then_some((0, 0, prefixes));
        let end_over = (links > 0).then_some((0, 2, 0));
        valid.chain([(links, 0, 0)]).chain(end_over).chain(prefix_over).collect()
    }

    fn spaces(&mut self) {
        for (link, end) in self.link_ends() {
            for (name, space) in
                [("p", Space::P), ("extended-p", Space::ExtendedP), ("q", Space::Q)]
            {
                self.ask(&format!("{name} {link} {end}"), &Question::Space { space, link, end });
            }
        }
    }

    fn links(&mut self) {
        for (link, end) in self.link_ends() {
            let question = Question::link_repair(link, end).with_ranks(self.ranks);
            self.ask(&format!("link-repair {link} {end}"), &question);
        }
    }

    fn prefixes(&mut self) {
        for (link, end, prefix) in self.link_end_prefixes() {
            let question = Question::prefix_repair(link, end, prefix).with_ranks(self.ranks);
            self.ask(&format!("prefix-repair {link} {end} {prefix}"), &question);
        }
    }

    fn routes(&mut self) {
        for (link, end, prefix) in self.link_end_prefixes() {
            for (string, choices) in choice_strings().into_iter().enumerate() {
                let question = Question::route(link, end, prefix, &choices).with_ranks(self.ranks);
                self.ask(&format!("route {link} {end} {prefix} {string}"), &question);
            }
        }
    }
}
