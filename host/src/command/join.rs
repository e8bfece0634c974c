//! `thoweldeck join A B… -o C`: what several stations received, in one record.
use super::bytes::counted;
use super::causes::Cause;
use super::names::shown;
use super::words::Words;
use super::{files, End, Ended, Failure, Out};
use std::path::{Path, PathBuf};
use thoweldeck::{Reason, Reception};

pub fn run(words: Words, out: &mut Out<'_>) -> End {
    let (first, others) = words.first_and_others("a record", "the records to join it with")?;
    let path = words.path("-o")?;
    // the joined record has all that each of them has, so it may take the place of any
    let over = std::iter::once(&first).chain(&others).any(|other| files::is_same(&path, other));
    let target = files::Target::lock(&path)?;
    if !over {
        target.is_free()?;
    }
    let mut joined = files::record(&first)?;
    let mut before = vec![(&first, joined.clone())];
    for name in &others {
        let other = files::record(name)?;
        let new = joined.join(&other).map_err(|reason| refused(&before, name, &other, reason))?;
        let (new, shown_name) = (counted(new as usize, "byte"), shown(name));
        match before.len() {
            1 => out.line(format!("{shown_name}: has {new} that {} has not", shown(&first))),
            _ => out.line(format!("{shown_name}: has {new} that those before it have not")),
        }
        before.push((name, other));
    }
    let record = joined.save();
    let notes = if over { target.replace(&record)? } else { target.create(&record)? };
    notes.iter().for_each(|note| out.line(note));
    out.line(format!("{}: {}", shown(&path), super::holes::summary(&joined)));
    Ok(Ended::Well)
}

// A record that does not fit those before it: which of them it does not fit, and why. What they hold together is what each
// of them holds, so one of them does not fit.
fn refused(before: &[(&PathBuf, Reception)], name: &Path, other: &Reception, reason: Reason) -> Failure {
    let refuses = |(_, one): &&(&PathBuf, Reception)| one.clone().join(other).is_err();
    let (what, cause) = match before.iter().find(refuses) {
        Some((first, one)) => (shown(first), Cause::of_join(one, other, reason)),
        None => ("what is before it".to_string(), Cause::from(reason)),
    };
    Failure::Refused(format!("{what} joined with {}", shown(name)), cause)
}
