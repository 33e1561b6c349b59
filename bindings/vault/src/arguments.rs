//! Splits the arguments of a command into words and options.
use std::iter::Peekable;

/// Options that stand alone; every other option has a value.
const SWITCHES: [&str; 2] = ["force", "stop-at-refusal"];

/// An option as it was given, its name without the dashes.
#[derive(Clone, Debug, PartialEq, Eq)]
pub struct Given {
    pub name: String,
    value: Option<String>,
}

impl Given {
    pub fn value(&self) -> Result<&str, String> {
        self.value.as_deref().ok_or(format!("--{} needs a value", self.name))
    }

    /// The value, read; what is wrong with it stands after the option's name.
    pub fn read<T>(&self, parse: impl FnOnce(&str) -> Result<T, String>) -> Result<T, String> {
        parse(self.value()?).map_err(|what| format!("--{}: {what}", self.name))
    }
}

/// The words of a command, and its options in the order in which they were given.
#[derive(Clone, Debug, Default, PartialEq, Eq)]
pub struct Arguments {
    words: Vec<String>,
    options: Vec<Given>,
}

impl Arguments {
    pub fn split<'a>(arguments: impl IntoIterator<Item = &'a str>) -> Result<Arguments, String> {
        let mut split = Arguments::default();
        let mut rest = arguments.into_iter().peekable();
        while let Some(argument) = rest.next() {
            match argument.strip_prefix("--") {
                Some(option) => split.options.push(one_option(option, &mut rest)?),
                None if is_short_option(argument) => return Err(format!("there is no option {argument}")),
                None => split.words.push(argument.to_string()),
            }
        }
        Ok(split)
    }

    /// The words, each of which has a name in the usage; those after the first `needed` may be missing.
    pub fn words(&self, command: &str, names: &[&str], needed: usize) -> Result<Vec<String>, String> {
        match self.words.get(names.len()) {
            Some(word) => Err(format!("{command}: '{word}' is one word too many")),
            None => self.at_least(command, &names[..needed]),
        }
    }

    /// The words, one for each name and any number behind these.
    pub fn at_least(&self, command: &str, names: &[&str]) -> Result<Vec<String>, String> {
        match names.get(self.words.len()) {
            Some(name) => Err(format!("{command} needs {name}")),
            None => Ok(self.words.clone()),
        }
    }

    pub fn options(&self) -> &[Given] {
        &self.options
    }

    /// The option that has one of these names, at most one.
    pub fn take(&mut self, names: &[&str]) -> Result<Option<Given>, String> {
        let mut found = self.take_all(names);
        match found.len() {
            0 | 1 => Ok(found.pop()),
            _ if found[0].name == found[1].name => Err(format!("--{} is given twice", found[0].name)),
            _ => Err(format!("--{} and --{} are the same option", found[0].name, found[1].name)),
        }
    }

    /// All options that have one of these names, in order.
    pub fn take_all(&mut self, names: &[&str]) -> Vec<Given> {
        let (found, left) = std::mem::take(&mut self.options).into_iter().partition(|given| names.contains(&given.name.as_str()));
        self.options = left;
        found
    }

    /// The value of the option of this name, at most one.
    pub fn take_value(&mut self, name: &str) -> Result<Option<String>, String> {
        self.take(&[name])?.map(|given| given.value().map(str::to_string)).transpose()
    }

    pub fn take_switch(&mut self, name: &str) -> bool {
        !self.take_all(&[name]).is_empty()
    }

    /// To be asked once all options of a command are taken.
    pub fn nothing_left(&self, command: &str) -> Result<(), String> {
        match self.options.first() {
            Some(given) => Err(format!("{command} has no option --{} (vault {command} --help)", given.name)),
            None => Ok(()),
        }
    }
}

/// A dash and more, unless a number below 0.
fn is_short_option(argument: &str) -> bool {
    argument.strip_prefix('-').is_some_and(|rest| !rest.is_empty() && !rest.starts_with(|c: char| c.is_ascii_digit()))
}

/// `--name VALUE`, `--name=VALUE` or a switch. A value may begin with one dash, as an amount below 0 does.
fn one_option<'a>(option: &str, rest: &mut Peekable<impl Iterator<Item = &'a str>>) -> Result<Given, String> {
    let (name, inline) = match option.split_once('=') {
        Some((name, value)) => (name, Some(value)),
        None => (option, None),
    };
    let value = match (SWITCHES.contains(&name), inline) {
        (true, None) => None,
        (true, Some(_)) => return Err(format!("--{name} has no value")),
        (false, Some(value)) => Some(value),
        (false, None) => rest.next_if(|value| !value.starts_with("--")),
    };
    Ok(Given { name: name.to_string(), value: value.map(str::to_string) })
}
