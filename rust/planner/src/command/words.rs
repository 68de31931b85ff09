//! The words of a command line: which command they name, and what is wrong with them.

use super::Failure;
use planner::ASCENDING_RANKS;
use std::ffi::{OsStr, OsString};
use std::fmt::Display;
use std::ops::RangeInclusive;
use std::path::Path;
use std::str::FromStr;

/// What `planner --help` prints.
pub const HELP: &str = "\
planner tells where packets go in the moment after a link drops.

  planner link FILE LINK END            the pair that repairs the link
  planner prefix FILE LINK END PREFIX   what repairs the traffic to a prefix,
                                        and whether it survives E's failure too
  planner route FILE LINK END PREFIX [CHOICE ...]
                                        the routers that a repaired packet takes
  planner spaces FILE LINK END          P-space, extended P-space and Q-space
  planner text FILE                     the text of a network file
  planner make TEXT FILE                makes the network file of a text
  planner drill SEED N FILE             makes the network file of a drill
  planner --help                        this text

  --ranks RANKS                         after link, prefix or route: which class
                                        of pairs comes first

FILE is a network file and TEXT the readable text of one. The word - stands for
standard input, and for standard output as the FILE of make and drill.

make replaces a network file that is there, once the new one is written whole,
and drill only the same drill. They replace no other file: remove that first.

LINK and PREFIX count from 0 in the order of the file. END 0 asks for the link's
first router, END 1 for its second: that router is S, which has to send packets
elsewhere, and the other one is E, the far router. A CHOICE is a number from 0
to 255. Each router takes the next one modulo the number of equal hops that it
has; after the last, 0.

RANKS are the ranks of the classes 0 to 7, with commas between: the numbers 0 to
7, each once, in any order. The pair whose class has the lowest rank comes
first. By a pair of class 0 to 3 no packet visits E, so that the repair survives
the failure of E too; by one of class 4 to 7 a packet may, and a link's own
repair, which leads to E, is always such. A pair of class 0, 1, 4 or 5 needs no
tunnel, one of class 2, 3, 6 or 7 does; with an even class its endpoint is
closer to the target than S. Without --ranks they are 0,1,2,3,4,5,6,7; with
4,5,0,1,6,7,2,3 tunnels come first. They never change whether there is a
repair.

A drill is a network for training, the same for all who give its SEED and N: a
ring of N routers, 3 to 64, without prefixes, whose costs, 1 to 100, are drawn
from SEED, a number from 0 to 4294967295.

A text has one thing in a line, and # starts a comment:

  routers 4
  link 0 1 1 1        # router a, router b, cost a to b, cost b to a
  prefix 1:0 2:0      # attachments, each ROUTER:COST

A link cost of 65535 says that the link is under maintenance in that direction:
packets may go over it, but no repair starts over it.

Exit status: 0 for an answer, which may be that there is no repair; 1 where the
file, the text or the question is refused; 2 for wrong words, and for a file
that cannot be read or written.
";

/// What the word `-` stands for, in place of the name of a file.
pub struct Standard {
    path: &'static str,
    name: &'static str,
}

pub const STDIN: Standard = Standard { path: "/dev/stdin", name: "standard input" };
pub const STDOUT: Standard = Standard { path: "/dev/stdout", name: "standard output" };

impl Standard {
    /// The path of what a word names.
    pub fn path<'a>(&self, word: &'a OsStr) -> &'a Path {
        Path::new(if word == "-" { self.path.as_ref() } else { word })
    }

    /// What a word names, for a message.
    pub fn name(&self, word: &OsStr) -> String {
        if word == "-" {
            self.name.to_string()
        } else {
            format!("`{}`", word.to_string_lossy())
        }
    }
}

/// A command and the words that it takes.
struct Form {
    name: &'static str,
    words: &'static [&'static str],
    /// Whether choices may follow.
    choices: bool,
    /// Whether ranks may be given.
    ranks: bool,
}

/// The option that gives ranks, and what follows it.
const RANKS: &str = "--ranks";

const FORMS: [Form; 7] = [
    form("link", &["FILE", "LINK", "END"]).with_ranks(),
    form("prefix", &["FILE", "LINK", "END", "PREFIX"]).with_ranks(),
    form("route", &["FILE", "LINK", "END", "PREFIX"]).with_choices().with_ranks(),
    form("spaces", &["FILE", "LINK", "END"]),
    form("text", &["FILE"]),
    form("make", &["TEXT", "FILE"]),
    form("drill", &["SEED", "N", "FILE"]),
];

const fn form(name: &'static str, words: &'static [&'static str]) -> Form {
    Form { name, words, choices: false, ranks: false }
}

impl Form {
    const fn with_choices(self) -> Form {
        Form { choices: true, ..self }
    }

    const fn with_ranks(self) -> Form {
        Form { ranks: true, ..self }
    }

    /// How the command is used.
    fn usage(&self) -> String {
        let choices = if self.choices { " [CHOICE ...]" } else { "" };
        let ranks = if self.ranks { " [--ranks RANKS]" } else { "" };
        format!("planner {} {}{choices}{ranks}", self.name, self.words.join(" "))
    }

    fn failure(&self, wrong: &str) -> Failure {
        Failure::Usage(format!("{wrong}\nusage: {}", self.usage()))
    }

    /// Takes the option with the ranks, if it is there, out of the words after the command's name.
    fn without_ranks<'a>(
        &self,
        words: &'a [OsString],
    ) -> Result<(Vec<&'a OsStr>, Option<&'a OsStr>), Failure> {
        let mut others: Vec<&OsStr> = words.iter().map(OsString::as_os_str).collect();
        let Some(place) = others.iter().position(|word| *word == RANKS) else {
            return Ok((others, None));
        };
        if !self.ranks {
            let wrong = format!("{RANKS} is for link, prefix and route; leave it out");
            return Err(self.failure(&wrong));
        }
        others.remove(place);
        if place == others.len() {
            return Err(self.failure(&format!("RANKS is missing after {RANKS}")));
        }
        let ranks = others.remove(place);
        if ranks == RANKS || others.contains(&OsStr::new(RANKS)) {
            return Err(self.failure(&format!("{RANKS} is given twice; give it once")));
        }
        Ok((others, Some(ranks)))
    }
}

/// A command with as many words as it takes.
pub struct Asked<'a> {
    form: &'static Form,
    words: Vec<&'a OsStr>,
    ranks: Option<&'a OsStr>,
}

impl<'a> Asked<'a> {
    /// The command that the words name, or what is wrong with them.
    pub fn of(words: &'a [OsString]) -> Result<Asked<'a>, Failure> {
        let [name, words @ ..] = words else {
            return Err(Failure::Usage(format!("no command is given\n\n{HELP}")));
        };
        let Some(form) = FORMS.iter().find(|form| name == form.name) else {
            let names = FORMS.map(|form| form.name).join(", ");
            let name = name.to_string_lossy();
            return Err(Failure::Usage(format!(
                "`{name}` is no command; the commands are {names}, and --help says more"
            )));
        };
        let (words, ranks) = form.without_ranks(words)?;
        if let Some(missing) = form.words.get(words.len()) {
            return Err(form.failure(&format!("{missing} is missing")));
        }
        if let Some(empty) = words.iter().take(form.words.len()).position(|word| word.is_empty()) {
            return Err(form.failure(&format!("{} is empty", form.words[empty])));
        }
        match words.get(form.words.len()) {
            Some(word) if !form.choices => {
                Err(form.failure(&format!("`{}` is one word too many", word.to_string_lossy())))
            }
            _ => Ok(Asked { form, words, ranks }),
        }
    }

    /// The name of the command.
    pub fn name(&self) -> &'static str {
        self.form.name
    }

    /// The word at a place of the form.
    pub fn word(&self, place: usize) -> &'a OsStr {
        self.words[place]
    }

    /// The word at a place of the form, as a number.
    pub fn number(&self, place: usize) -> Result<usize, Failure> {
        self.number_in(place, 0..=usize::MAX)
    }

    /// The word at a place of the form, as a number of the range.
    pub fn number_in<Number: FromStr + PartialOrd + Display>(
        &self,
        place: usize,
        range: RangeInclusive<Number>,
    ) -> Result<Number, Failure> {
        self.number_of(self.form.words[place], self.word(place), range)
    }

    /// The words after those of the form, as choice bytes.
    pub fn choices(&self) -> Result<Vec<u8>, Failure> {
        let choice = |word: &&OsStr| self.number_of("CHOICE", word, BYTES);
        self.words[self.form.words.len()..].iter().map(choice).collect()
    }

    /// The ranks that are given, or ascending ones. Whether they are an arrangement is for the
    /// planner to say.
    pub fn ranks(&self) -> Result<Vec<u8>, Failure> {
        let Some(given) = self.ranks else {
            return Ok(ASCENDING_RANKS.to_vec());
        };
        let given = given.to_string_lossy();
        let ranks =
            given.split(',').map(|rank| number(rank.as_ref(), &BYTES)).collect::<Option<Vec<u8>>>();
        ranks.ok_or_else(|| {
            self.form.failure(&format!(
                "RANKS is `{given}`, expected numbers from 0 to 255 with commas and no spaces \
                 between, as in 4,5,0,1,6,7,2,3"
            ))
        })
    }

    /// A word as a number of the range; `what` names it.
    fn number_of<Number: FromStr + PartialOrd + Display>(
        &self,
        what: &str,
        word: &OsStr,
        range: RangeInclusive<Number>,
    ) -> Result<Number, Failure> {
        number(word, &range).ok_or_else(|| {
            let (word, least, most) = (word.to_string_lossy(), range.start(), range.end());
            let wrong = format!("{what} is `{word}`, expected a number from {least} to {most}");
            self.form.failure(&wrong)
        })
    }
}

/// The numbers of a byte.
const BYTES: RangeInclusive<u8> = 0..=u8::MAX;

/// A word as a number of the range.
fn number<Number: FromStr + PartialOrd>(
    word: &OsStr,
    range: &RangeInclusive<Number>,
) -> Option<Number> {
    let word = word.to_str()?;
    // Digits only: a sign is accepted by the standard library as well.
    let digits = word.bytes().all(|byte| byte.is_ascii_digit());
    word.parse().ok().filter(|number| digits && range.contains(number))
}
