//! 6: which of its rules, with the numbers of the line.

use super::stations::number;
use super::{Case, Told};
use crate::rows::form::*;
use crate::words::plural;

pub fn disagree<'a>(case: &Case<'a>) -> Option<Told<'a>> {
    let text = case.text()?;
    let [from, to] = [number(text.get(38..42)?)?, number(text.get(42..46)?)?];
    let increment = match text.get(46..47)? {
        b" " => 1,
        digit => number(digit)?,
    };
    if case.refusal.column == 39 {
        return Some(Told::of(CROSSED, [FROM_ABOVE_TO.with(&[&from, &to, &from, &to])]));
    }
    let channels = to.checked_sub(from)? + 1;
    if case.refusal.column == 47 {
        let found = CHANNELS_BY.with(&[&from, &to, &channels, &increment]);
        return Some(Told::of(NO_MULTIPLE, [found]));
    }
    let [first, last] = [number(text.get(63..71)?)?, number(text.get(71..79)?)?];
    let receivers = channels.checked_div(increment)?;
    let found = CHANNELS_AND_RECEIVERS.with(&[
        &channels,
        &plural(channels, "channel"),
        &increment,
        &receivers,
        &plural(receivers, "receiver"),
        &first,
        &last,
        &(first.abs_diff(last) + 1),
    ]);
    Some(Told::of(OTHER_RECEIVERS, [found]))
}
