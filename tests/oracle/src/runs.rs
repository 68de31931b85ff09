//! The commands about runs of LSAs.

use crate::answer::{Answer, Outcome};
use crate::command::{bytes, checked, length, no_command, number};
use crate::fault::Context;
use crate::ospf::layout::BEFORE_LINKS;
use crate::ospf::{Cause, Lsa, damage, import, import::refusal, make, words as lines};
use crate::random::Random;
use crate::words::{short, spaced};
use std::io::Read;

/// What a command about runs prints. `lent` is the buffer for a file.
pub fn command(
    ctx: &Context,
    lent: &[u8],
    words: &[&str],
    input: &mut dyn Read,
) -> Result<Vec<u8>, String> {
    match words {
        ["import"] => file(ctx, lent, &bytes(input)?),
        ["run"] => Ok(lines::run(ctx, &bytes(input)?).into_bytes()),
        ["causes"] => {
            let line =
                |cause: &Cause| format!("{cause:?}: {}, {}\n", cause.number(), cause.words());
            Ok(Cause::ALL.iter().map(line).collect::<String>().into_bytes())
        }
        ["lsas", seed] => Ok(make::run(&make::mixed(9, &mut Random::new(number(seed)?)))),
        ["lsas", seed, cause] => damaged(number(seed)?, cause),
        ["lsas", seed, routers, links, prefixes] => {
            let random = &mut Random::new(number(seed)?);
            sized(length(routers)?, length(links)?, length(prefixes)?, random)
        }
        _ => Err(no_command(words)),
    }
}

/// The file that the call import writes.
fn file(ctx: &Context, lent: &[u8], run: &[u8]) -> Result<Vec<u8>, String> {
    let Outcome { answer, mut left } = import(ctx, run, lent);
    let Answer::Written(count) = answer else {
        let cause = refusal(run, lent.len()).map_or("a fault", |refusal| refusal.cause.words());
        return Err(format!("{}: {cause}", short(&Outcome { answer, left })));
    };
    left.made.truncate(count);
    Ok(left.made)
}

/// The answer of the call import in one line, and the buffer after it in another.
pub fn answer(ctx: &Context, lent: &[u8], show_left: bool, run: &[u8]) -> Result<Vec<u8>, String> {
    let outcome = import(ctx, run, lent);
    let mut text = short(&outcome) + "\n";
    if show_left {
        text += &format!("buffer {}\n", spaced(&outcome.left.made));
    }
    Ok(text.into_bytes())
}

/// A random run with one LSA that is bad for this cause.
fn damaged(seed: u64, cause: &str) -> Result<Vec<u8>, String> {
    let causes = Cause::of_number(16);
    let named = causes.into_iter().find(|each| format!("{each:?}") == cause);
    let cause = named.ok_or(format!("`{cause}` is no cause for which an LSA is bad"))?;
    let random = &mut Random::new(seed);
    let lsas = make::network(4, 5, 3, random);
    let place = random.between(1, lsas.len() - 1);
    Ok(damage::run(&lsas, cause, place, random))
}

/// A random run of a size. Sizes beyond the limits of a network file are allowed.
fn sized(
    routers: usize,
    links: usize,
    prefixes: usize,
    random: &mut Random,
) -> Result<Vec<u8>, String> {
    checked(routers <= 1000, "there are at most 1000 routers")?;
    checked(
        links <= routers * routers.saturating_sub(1) / 2,
        "there are too few routers for the links",
    )?;
    checked(prefixes <= 250, "there are at most 250 prefixes")?;
    checked(prefixes == 0 || routers > 0, "there is no router for the prefixes")?;
    let lsas = make::network(routers, links, prefixes, random);
    let fits = |lsa: &Lsa| BEFORE_LINKS + 12 * lsa.links.len() <= usize::from(u16::MAX);
    checked(lsas.iter().all(fits), "an LSA is too long")?;
    Ok(make::run(&lsas))
}
