//! Comparing what the library gave with what the second method gives.

use std::fmt::{Display, Write};

use cepnhoy::{Allocated, Settings};

/// A difference, in words.
#[derive(Clone, Debug)]
pub struct Failure(pub String);

pub type Checked = Result<(), Failure>;

/// The same outcome, with the place put before a failure's words.
pub fn at(place: impl FnOnce() -> String, outcome: Checked) -> Checked {
    outcome.map_err(|Failure(words)| Failure(format!("{}: {words}", place())))
}

/// Put before a failure's words where the second method itself is held to worked figures, for those words name two others.
pub const AGAINST_FIGURES: &str = "(here \"library\" is the model, \"model\" the figures)";

pub fn same<T: PartialEq + Display>(what: &str, library: T, model: T) -> Checked {
    if library == model {
        return Ok(());
    }
    Err(Failure(format!("{what}: library {library}, model {model}")))
}

pub fn same_words<T: PartialEq + Display>(what: &str, library: &[T], model: &[T]) -> Checked {
    same(&format!("length of {what}"), library.len(), model.len())?;
    let differs = library.iter().zip(model).position(|(x, y)| x != y);
    match differs {
        None => Ok(()),
        Some(index) => same(&format!("{what}, word {index}"), &library[index], &model[index]),
    }
}

pub fn same_settings(library: &Settings, model: &Settings) -> Checked {
    if library == model {
        return Ok(());
    }
    same("setting meters", library.meters, model.meters)?;
    same_words("setting weights", &library.weights, &model.weights)?;
    same_words("setting shapes", &library.shapes, &model.shapes)?;
    same("setting tolerance", library.tolerance, model.tolerance)?;
    same("setting take_set", library.take_set, model.take_set)?;
    same("setting take_wh", library.take_wh, model.take_wh)
}

pub fn same_allocated(library: &Allocated, model: &Allocated) -> Checked {
    same("number", library.number, model.number)?;
    same("U", library.unallocated, model.unallocated)?;
    same("W", library.weighted, model.weighted)?;
    same("actual", library.actual, model.actual)?;
    same("estimated", library.estimated, model.estimated)?;
    same("defaulted", library.defaulted, model.defaulted)?;
    same("idle", library.idle, model.idle)?;
    same_words("droppings", &library.droppings, &model.droppings)
}

/// Settings as a few words: only what differs from a fresh book.
pub fn settings_in_words(settings: &Settings) -> String {
    let mut words = format!("meters={} tolerance={}", settings.meters, settings.tolerance);
    let _ = write!(words, " take_set={} take_wh={}", settings.take_set, settings.take_wh);
    for (class, thousandths) in settings.weights.iter().enumerate() {
        if *thousandths != 0 {
            let _ = write!(words, " weight[{class}]={thousandths}");
        }
    }
    for (category, wh) in settings.shapes.iter().enumerate() {
        if *wh != u32::MAX {
            let _ = write!(words, " shape[{category}]={wh}");
        }
    }
    words
}
