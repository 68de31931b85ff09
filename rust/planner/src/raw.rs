//! The C interface, as `include/planner.h` declares it, for programs that want the numbers as the
//! library gives them; the header says what each is. The functions of the crate itself are safe.

#![allow(missing_docs)]

/// `PLANNER_VERSION`: the version of the interface.
pub const VERSION: u32 = 5;

/// The kinds of an answer.
pub mod kind {
    pub const REFUSED: u32 = 0;
    pub const ACCEPTED: u32 = 1;
    pub const DONE: u32 = 2;
    pub const UNREACHABLE: u32 = 3;
    pub const UNTOUCHED: u32 = 4;
    pub const SET: u32 = 5;
    pub const PAIR: u32 = 6;
    pub const PLAYED: u32 = 7;
}

/// `planner_answer`: a field of which its kind does not speak is 0.
#[repr(C)]
#[derive(Clone, Copy, Debug, Default, PartialEq, Eq)]
pub struct Answer {
    pub kind: u32,
    pub number: u32,
    pub value: u64,
    pub first: usize,
    pub endpoint: usize,
    pub pair_class: u32,
    pub cost: u32,
}

/// `planner_network`: the network that a file holds, or of which a file is to be made, in arrays of
/// their largest size.
#[repr(C)]
#[derive(Clone, Debug, PartialEq, Eq)]
pub struct Network {
    pub kind: u32,
    pub number: u32,
    pub value: u64,
    pub routers: usize,
    pub links: usize,
    pub prefixes: usize,
    pub from: [u8; 128],
    pub to: [u8; 128],
    pub out: [u16; 128],
    pub back: [u16; 128],
    pub attached: [u8; 128],
    pub at: [u8; 1024],
    pub own: [u16; 1024],
}

impl Network {
    /// The network with nothing in it.
    pub const EMPTY: Network = Network {
        kind: 0,
        number: 0,
        value: 0,
        routers: 0,
        links: 0,
        prefixes: 0,
        from: [0; 128],
        to: [0; 128],
        out: [0; 128],
        back: [0; 128],
        attached: [0; 128],
        at: [0; 1024],
        own: [0; 1024],
    };
}

// SAFETY: each declaration is the one of `include/planner.h`: the same parameters in the same
// order, structs with the same fields in the same order, and `usize` for `size_t`. `planner_size`
// is safe because it takes no pointer and answers for every number.
unsafe extern "C" {
    pub fn planner_load(file: *const u8, file_len: usize) -> Network;
    pub fn planner_link_entry(
        file: *const u8,
        file_len: usize,
        link: usize,
        entry: *mut u8,
    ) -> usize;
    pub fn planner_prefix_entry(
        file: *const u8,
        file_len: usize,
        prefix: usize,
        entry: *mut u8,
    ) -> usize;
    pub fn planner_distances(
        file: *const u8,
        file_len: usize,
        work: *mut u32,
        work_len: usize,
    ) -> Answer;
    pub fn planner_p_space(
        file: *const u8,
        file_len: usize,
        work: *mut u32,
        work_len: usize,
        link: usize,
        end: usize,
    ) -> Answer;
    pub fn planner_extended_p_space(
        file: *const u8,
        file_len: usize,
        work: *mut u32,
        work_len: usize,
        link: usize,
        end: usize,
    ) -> Answer;
    pub fn planner_q_space(
        file: *const u8,
        file_len: usize,
        work: *mut u32,
        work_len: usize,
        link: usize,
        end: usize,
    ) -> Answer;
    pub safe fn planner_size(set: u64) -> u32;
    pub fn planner_link_repair(
        file: *const u8,
        file_len: usize,
        work: *mut u32,
        work_len: usize,
        ranks: *const u8,
        ranks_len: usize,
        link: usize,
        end: usize,
    ) -> Answer;
    pub fn planner_prefix_repair(
        file: *const u8,
        file_len: usize,
        work: *mut u32,
        work_len: usize,
        ranks: *const u8,
        ranks_len: usize,
        link: usize,
        end: usize,
        prefix: usize,
    ) -> Answer;
    pub fn planner_route(
        file: *const u8,
        file_len: usize,
        work: *mut u32,
        work_len: usize,
        ranks: *const u8,
        ranks_len: usize,
        link: usize,
        end: usize,
        prefix: usize,
        choices: *const u8,
        choices_len: usize,
        route: *mut u8,
        route_len: usize,
    ) -> Answer;
    pub fn planner_link_repair_with(
        file: *const u8,
        file_len: usize,
        table: *const u32,
        table_len: usize,
        ranks: *const u8,
        ranks_len: usize,
        link: usize,
        end: usize,
    ) -> Answer;
    pub fn planner_prefix_repair_with(
        file: *const u8,
        file_len: usize,
        table: *const u32,
        table_len: usize,
        ranks: *const u8,
        ranks_len: usize,
        link: usize,
        end: usize,
        prefix: usize,
    ) -> Answer;
    pub fn planner_route_with(
        file: *const u8,
        file_len: usize,
        table: *const u32,
        table_len: usize,
        ranks: *const u8,
        ranks_len: usize,
        link: usize,
        end: usize,
        prefix: usize,
        choices: *const u8,
        choices_len: usize,
        route: *mut u8,
        route_len: usize,
    ) -> Answer;
    pub fn planner_write(network: Network, buffer: *mut u8, buffer_len: usize) -> usize;
    pub fn planner_drill(seed: u32, routers: usize, buffer: *mut u8, buffer_len: usize) -> usize;
}

#[cfg(test)]
mod tests {
    use super::{kind, Answer, Network, VERSION};
    use std::io::Write;
    use std::mem::{offset_of, size_of};
    use std::process::{Command, Stdio};

    /// Assertions in C that a struct of the header has the size and the offsets of the one here.
    macro_rules! layout {
        ($name:literal, $struct:ty: $($field:ident)*) => {
            [
                (format!("sizeof({})", $name), size_of::<$struct>()),
                $((
                    format!("offsetof({}, {})", $name, stringify!($field)),
                    offset_of!($struct, $field),
                ),)*
            ]
        };
    }

    /// The same for the kinds.
    macro_rules! kinds {
        ($($kind:ident)*) => {
            [$((format!("PLANNER_{}", stringify!($kind)), kind::$kind as usize),)*]
        };
    }

    /// Whether the C compiler, given the header, finds that each text has its value.
    fn compiler_agrees(facts: &[(String, usize)]) -> bool {
        let include = concat!(env!("CARGO_MANIFEST_DIR"), "/../../include");
        let mut compiler = Command::new("cc")
            .args(["-std=c11", "-fsyntax-only", "-I", include, "-x", "c", "-"])
            .stdin(Stdio::piped())
            .stderr(Stdio::null())
            .spawn()
            .expect("the C compiler starts");
        let mut input = compiler.stdin.take().expect("a pipe");
        let facts = facts.iter();
        let asserts = facts.map(|(text, is)| format!("_Static_assert({text} == {is}, \"\");\n"));
        let text = format!("#include \"planner.h\"\n{}", asserts.collect::<String>());
        input.write_all(text.as_bytes()).expect("the pipe takes the text");
        drop(input);
        compiler.wait().expect("the C compiler ends").success()
    }

    #[test]
    fn the_declarations_are_those_of_the_header() {
        assert!(compiler_agrees(&layout!("planner_answer", Answer:
            kind number value first endpoint pair_class cost)));
        assert!(compiler_agrees(&layout!("planner_network", Network:
            kind number value routers links prefixes from to out back attached at own)));
        assert!(compiler_agrees(&kinds!(
            REFUSED ACCEPTED DONE UNREACHABLE UNTOUCHED SET PAIR PLAYED)));
        assert!(compiler_agrees(&[("PLANNER_VERSION".to_string(), VERSION as usize)]));
        assert!(!compiler_agrees(&[("sizeof(planner_answer)".to_string(), 41)]));
    }
}
