//! The pages of the documents: the dump of ring 4, the drill worked by hand, and
//! how commands are found.

use oracle::answer::{drill, plan_text};
use oracle::drill::{Draws, network};
use oracle::fault::Context;
use oracle::file::write;
use oracle::page::{Shown, commands, read};
use oracle::text::of_network;
use oracle::worked::ring_4_with_prefix;

/// The offset and the bytes of a line such as `    00000010: 0a0b 0c0d`.
fn dumped(line: &str) -> Option<(usize, Vec<u8>)> {
    let (offset, bytes) = line.strip_prefix("    ")?.split_once(": ")?;
    let offset = usize::from_str_radix(offset, 16).ok().filter(|_| offset.len() == 8)?;
    let digits: String = bytes.split_whitespace().collect();
    let byte = |at: usize| u8::from_str_radix(&digits[at..at + 2], 16).expect("a byte");
    Some((offset, (0..digits.len()).step_by(2).map(byte).collect()))
}

#[test]
fn the_dump_of_the_specification_is_ring_4() {
    let mut shown = vec![0; 1536];
    for (offset, bytes) in read("docs/SPECIFICATION.md").lines().filter_map(dumped) {
        shown[offset..offset + bytes.len()].copy_from_slice(&bytes);
    }
    assert_eq!(shown, write(&ring_4_with_prefix()));
}

/// The section of a page whose heading ends with a word, up to the next heading.
fn section(page: &str, word: &str) -> String {
    let heading = |line: &&str| line.starts_with('#');
    let from = page.lines().skip_while(|line| !(heading(line) && line.ends_with(word)));
    let lines: Vec<&str> = from.skip(1).take_while(|line| !heading(line)).collect();
    assert!(!lines.is_empty(), "there is no section {word}");
    lines.join("\n")
}

/// The numbers of a row of a table, if there is nothing else in it.
fn numbers(line: &str) -> Option<Vec<u64>> {
    let cells = line.strip_prefix('|')?.strip_suffix('|')?.split('|');
    cells.map(|cell| cell.trim().replace(',', "").parse().ok()).collect()
}

#[test]
fn the_draws_of_the_specification() {
    let ctx = Context::sound();
    let section = section(&read("docs/SPECIFICATION.md"), " Drills");
    let rows: Vec<Vec<u64>> = section.lines().filter_map(numbers).collect();
    assert_eq!(rows.len(), 10);
    for row in rows {
        let [seed, draw, value, sum, times, new, upper, rest, cost] = row[..] else {
            panic!("{row:?}");
        };
        assert_eq!(1_664_525 * value + 1_013_904_223, sum);
        assert_eq!(4_294_967_296 * times + new, sum);
        let mut draws = Draws::of(&ctx, seed as u32);
        for _ in 0..draw {
            draws.draw();
        }
        assert_eq!(draws.value, value);
        assert_eq!((draws.draw(), draws.value), (upper, new));
        assert_eq!((upper % 100, 1 + upper % 100), (rest, cost));
    }
}

#[test]
fn the_drill_of_the_specification() {
    let ctx = Context::sound();
    let section = section(&read("docs/SPECIFICATION.md"), " Drills");
    let file = drill(&ctx, 1, 3, &[9; 1024]).left.made;
    let mut shown = vec![0; 1024];
    for line in section.lines().filter(|line| line.starts_with('|') && line.contains(" | `")) {
        let cells: Vec<&str> = line.split('|').map(str::trim).collect();
        let at = usize::from_str_radix(cells[1], 16).expect("an offset");
        let bytes = cells[2].trim_matches('`').split(' ');
        for (place, byte) in bytes.enumerate() {
            shown[at + place] = u8::from_str_radix(byte, 16).expect("a byte");
        }
    }
    assert_eq!(shown, file);
    let drilled = network(&ctx, 1, 3).expect("a drill");
    for text in [of_network(&drilled), plan_text(&ctx, &file)] {
        let block: String = text.lines().map(|line| format!("\n    {line}")).collect();
        assert!(section.contains(&format!("{block}\n\n")), "{text}");
    }
}

#[test]
fn commands_and_what_they_print() {
    let page = "$ not indented\n    drawn\n\n    $ one\n    1\n     1\n    $ two\n\n    drawn\n";
    let shown = |command: &str, prints: &str| Shown {
        command: command.to_string(),
        prints: prints.to_string(),
    };
    assert_eq!(commands(page), [shown("one", "1\n 1\n"), shown("two", "")]);
}
