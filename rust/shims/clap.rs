//! Of `clap` what the programs use, in the words of `clap` 4.5: long options, their values, help and version. Debian has
//! 4.0, which words them otherwise; and no release of Rust's crate can be refused memory.
use kit::alloc::{AllocError, Global};
use kit::string::String;
use kit::vec::Vec;
use std::fmt::{self, Display, Write};
use std::str::FromStr;

pub mod builder {
    /// What a value's text has to be: any text, a number of a range, which is read with a sign, or one of 64 bits.
    #[derive(Clone, Copy, Default)]
    pub enum ValueParser<'a> {
        #[default]
        Text,
        Signed(i64, i64),
        Unsigned(std::marker::PhantomData<&'a ()>),
    }
    impl<'a> ValueParser<'a> {
        pub fn range(self, range: std::ops::RangeInclusive<i64>) -> ValueParser<'a> {
            ValueParser::Signed(*range.start(), *range.end())
        }
    }
}
use builder::ValueParser;
#[macro_export]
macro_rules! value_parser {
    (u32) => {
        $crate::builder::ValueParser::Signed(0, u32::MAX as i64)
    };
    (u64) => {
        $crate::builder::ValueParser::Unsigned(::std::marker::PhantomData)
    };
}
pub mod parser {
    /// Where a value is from.
    #[derive(Clone, Copy, PartialEq)]
    pub enum ValueSource {
        DefaultValue,
        CommandLine,
    }
}
use parser::ValueSource;
pub mod error {
    #[derive(PartialEq)]
    pub enum ErrorKind {
        Words,
        OutOfMemory,
    }
}
use error::ErrorKind;

/// Why words give no matches: a text for the user, or none for want of memory.
#[derive(Debug)]
pub struct Error(Option<String>);
impl Error {
    pub fn kind(&self) -> ErrorKind {
        if self.0.is_some() { ErrorKind::Words } else { ErrorKind::OutOfMemory }
    }
}
impl From<AllocError> for Error {
    fn from(_: AllocError) -> Error {
        Error(None)
    }
}
impl Display for Error {
    fn fmt(&self, f: &mut fmt::Formatter<'_>) -> fmt::Result {
        f.write_str(self.0.as_deref().unwrap_or("error: out of memory\n"))
    }
}

#[derive(Clone, Copy, Default, PartialEq)]
pub enum ArgAction {
    #[default]
    Set,
    SetTrue,
}

macro_rules! setters {
    ($type:ident $($name:ident: $value:ty,)*) => {
        impl<'a> $type<'a> {
            $(pub fn $name(mut self, value: $value) -> Self {
                self.$name = value.into();
                self
            })*
        }
    };
}
setters!(Arg long: &'a str, action: ArgAction, value_parser: ValueParser<'a>, default_value: &'a str,
    value_name: &'a str, help: &'a str, required: bool,);
setters!(Command version: &'a str, about: &'a str, override_usage: &'a str, after_help: &'a str,);

/// An option.
#[derive(Default)]
pub struct Arg<'a> {
    id: &'a str,
    long: &'a str,
    action: ArgAction,
    value_parser: ValueParser<'a>,
    default_value: Option<&'a str>,
    value_name: &'a str,
    help: &'a str,
    required: bool,
}
impl<'a> Arg<'a> {
    pub fn new(_: Global, id: &'a str) -> Arg<'a> {
        Arg { id, long: id, value_name: id, ..Arg::default() }
    }
    fn takes_value(&self) -> bool {
        self.action == ArgAction::Set
    }
    // How wide its name and that of its value are.
    fn width(&self) -> usize {
        2 + self.long.len() + if self.takes_value() { 3 + self.value_name.len() } else { 0 }
    }
}
impl Display for Arg<'_> {
    fn fmt(&self, f: &mut fmt::Formatter<'_>) -> fmt::Result {
        write!(f, "--{}", self.long)?;
        if self.takes_value() { write!(f, " <{}>", self.value_name) } else { Ok(()) }
    }
}

/// A program.
pub struct Command<'a> {
    alloc: Global,
    name: &'a str,
    version: &'a str,
    about: &'a str,
    override_usage: &'a str,
    after_help: &'a str,
    args: Vec<Arg<'a>>,
}
impl<'a> Command<'a> {
    pub fn new(alloc: Global, name: &'a str) -> Command<'a> {
        let args = Vec::new(alloc);
        Command { alloc, name, version: "", about: "", override_usage: "", after_help: "", args }
    }
    pub fn args(mut self, args: impl IntoIterator<Item = Arg<'a>>) -> Result<Command<'a>, AllocError> {
        for arg in args {
            self.args.push(arg)?;
        }
        Ok(self)
    }
    /// What the words say, the first of which is the program's name.
    pub fn try_get_matches_from_mut(&mut self, words: &'a [String]) -> Result<ArgMatches<'a>, Error> {
        let mut reading = Reading { command: self, given: Vec::new(self.alloc), pending: None };
        reading.read(words)?;
        let given = reading.given;
        self.check_required(&given)?;
        let mut found = Vec::with_capacity(self.alloc, self.args.len())?;
        for (at, arg) in self.args.iter().enumerate() {
            let said = given.iter().find(|given| given.0 == at).map(|given| (given.1, ValueSource::CommandLine));
            let usual = if arg.takes_value() { arg.default_value } else { Some("false") };
            if let Some((text, source)) = said.or(usual.map(|text| (text, ValueSource::DefaultValue))) {
                found.push_reserved((arg.id, text, source));
            }
        }
        Ok(ArgMatches(found))
    }

    // The help, with the options in two columns.
    fn write_help(&self, text: &mut String) -> fmt::Result {
        let width = self.args.iter().map(Arg::width).max().unwrap_or(0).max("--version".len());
        write!(text, "{}\n\nUsage: {}\n\nOptions:\n", self.about, self.override_usage)?;
        for arg in &self.args {
            write!(text, "      {arg}{:1$}  {2}", "", width - arg.width(), arg.help)?;
            match arg.default_value {
                Some(usual) => writeln!(text, " [default: {usual}]")?,
                None => writeln!(text)?,
            }
        }
        writeln!(text, "  -h, {:width$}  Print help", "--help")?;
        writeln!(text, "  -V, {:width$}  Print version", "--version")?;
        if self.after_help.is_empty() { Ok(()) } else { writeln!(text, "\n{}", self.after_help) }
    }
    fn refusal(&self, has_usage: bool, why: fmt::Arguments<'_>) -> Error {
        let (head, usage) = if has_usage { ("\n\nUsage: ", self.override_usage) } else { ("", "") };
        let end = "For more information, try '--help'.";
        Error(String::formatted(self.alloc, format_args!("error: {why}{head}{usage}\n\n{end}\n")).ok())
    }
    fn check_required(&self, given: &[(usize, &str)]) -> Result<(), Error> {
        let mut missing = String::default();
        for (at, arg) in self.args.iter().enumerate() {
            if arg.required && !given.iter().any(|given| given.0 == at) {
                write!(missing, "\n  {arg}").map_err(|_| AllocError)?;
            }
        }
        let why = format_args!("the following required arguments were not provided:{missing}");
        if missing.is_empty() { Ok(()) } else { Err(self.refusal(true, why)) }
    }
    fn unexpected(&self, word: &dyn Display) -> Error {
        self.refusal(true, format_args!("unexpected argument '{word}' found"))
    }
    fn unknown(&self, word: &str) -> Error {
        let mut best = (0.7, None);
        for long in self.args.iter().map(|arg| arg.long).chain(["help", "version"]) {
            let likeness = likeness(&word[2..], long);
            if likeness > 0.7 && likeness >= best.0 {
                best = (likeness, Some(long));
            }
        }
        let tip = "tip: a similar argument exists:";
        match best.1 {
            Some(long) => self.refusal(true, format_args!("unexpected argument '{word}' found\n\n  {tip} '--{long}'")),
            None => self.unexpected(&word),
        }
    }
}

// How alike a word and a long name are, from 0 to 1, as Jaro has it: no word of 128 letters is like one of ten. The order
// of the sum decides whether some are above 0.7.
fn likeness(word: &str, long: &str) -> f64 {
    let (letters, names) = (word.chars().count(), long.as_bytes());
    if letters >= 128 {
        return 0.0;
    }
    let range = (letters.max(names.len()) / 2).saturating_sub(1);
    // Which letters of each have one of the other.
    let (mut of_word, mut of_long) = (0u128, 0u128);
    for (at, letter) in word.chars().enumerate() {
        let mut near = at.saturating_sub(range)..names.len().min(at + range + 1);
        if let Some(place) = near.find(|place| names[*place] as char == letter && of_long >> place & 1 == 0) {
            of_word |= 1 << at;
            of_long |= 1 << place;
        }
    }
    let had = word.chars().enumerate().filter(|(at, _)| of_word >> at & 1 == 1).map(|(_, letter)| letter);
    let has = names.iter().enumerate().filter(|(at, _)| of_long >> at & 1 == 1).map(|(_, name)| *name as char);
    let moved = had.zip(has).filter(|(one, other)| one != other).count() / 2;
    let all = of_word.count_ones() as f64;
    if all == 0.0 { 0.0 } else { (all / letters as f64 + all / names.len() as f64 + (all - moved as f64) / all) / 3.0 }
}

// What was read of the words so far.
struct Reading<'c, 'a> {
    command: &'c Command<'a>,
    given: Vec<(usize, &'a str)>,
    // An option whose value has still to be looked at, or to come.
    pending: Option<(usize, Option<&'a str>)>,
}
impl<'a> Reading<'_, 'a> {
    fn resolve(&mut self) -> Result<(), Error> {
        match self.pending.take() {
            None => Ok(()),
            Some((at, Some(value))) => self.take(at, value),
            Some((at, None)) => {
                let arg = &self.command.args[at];
                let why = format_args!("a value is required for '{arg}' but none was supplied");
                Err(self.command.refusal(false, why))
            }
        }
    }
    fn take(&mut self, at: usize, value: &'a str) -> Result<(), Error> {
        let arg = &self.command.args[at];
        if self.given.iter().any(|given| given.0 == at) {
            let why = format_args!("the argument '{arg}' cannot be used multiple times");
            return Err(self.command.refusal(true, why));
        }
        self.check(arg, value)?;
        Ok(self.given.push((at, value)).map_err(AllocError::from)?)
    }
    fn check(&self, arg: &Arg<'a>, value: &str) -> Result<(), Error> {
        let refuse = |why: &dyn Display| {
            Err(self.command.refusal(false, format_args!("invalid value '{value}' for '{arg}': {why}")))
        };
        match arg.value_parser {
            ValueParser::Text => Ok(()),
            ValueParser::Unsigned(_) => u64::from_str(value).map(drop).or_else(|why| refuse(&why)),
            ValueParser::Signed(least, greatest) => match i64::from_str(value) {
                Ok(number) if least <= number && number <= greatest => Ok(()),
                Ok(number) => refuse(&format_args!("{number} is not in {least}..={greatest}")),
                Err(why) => refuse(&why),
            },
        }
    }
    fn shown(&mut self, is_help: bool) -> Error {
        if let Err(why) = self.resolve() {
            return why;
        }
        let Command { name, version, .. } = self.command;
        let mut text = String::default();
        let written = if is_help { self.command.write_help(&mut text) } else { writeln!(text, "{name} {version}") };
        Error(written.ok().map(|()| text))
    }
    fn read_long(&mut self, word: &'a str) -> Result<(), Error> {
        let (name, value) = word[2..].split_once('=').map_or((&word[2..], None), |(name, value)| (name, Some(value)));
        let command = self.command;
        let many = |what: &dyn Display, value: &str| {
            let why = format_args!("unexpected value '{value}' for '{what}' found; no more were expected");
            Err(command.refusal(true, why))
        };
        let Some(at) = command.args.iter().position(|arg| arg.long == name) else {
            return match (name, value) {
                ("help" | "version", Some(value)) => many(&format_args!("--{name}"), value),
                ("help" | "version", None) => Err(self.shown(name == "help")),
                _ => Err(command.unknown(&word[..2 + name.len()])),
            };
        };
        let arg = &command.args[at];
        match value {
            Some(value) if !arg.takes_value() => return many(arg, value),
            _ => self.resolve()?,
        }
        if arg.takes_value() && value.is_none() {
            self.pending = Some((at, None));
            return Ok(());
        }
        self.take(at, value.unwrap_or("true"))
    }
    fn read(&mut self, words: &'a [String]) -> Result<(), Error> {
        let mut are_values = false;
        for word in words.iter().skip(1).map(String::as_str) {
            let letter = word.strip_prefix('-').and_then(|rest| rest.chars().next());
            match (&mut self.pending, letter) {
                _ if are_values => return Err(self.command.unexpected(&word)),
                (_, Some('-')) if word == "--" => are_values = true,
                (_, Some('-')) => self.read_long(word)?,
                (_, Some(letter @ ('h' | 'V'))) => return Err(self.shown(letter == 'h')),
                (_, Some(letter)) => return Err(self.command.unexpected(&format_args!("-{letter}"))),
                (Some((_, value @ None)), None) => *value = Some(word),
                (_, None) => return Err(self.command.unexpected(&word)),
            }
        }
        self.resolve()
    }
}

/// What words say.
pub struct ArgMatches<'a>(Vec<(&'a str, &'a str, ValueSource)>);
impl<'a> ArgMatches<'a> {
    fn of(&self, id: &str) -> Option<&(&'a str, &'a str, ValueSource)> {
        self.0.iter().find(|found| found.0 == id)
    }
    pub fn get_one<T: FromStr>(&self, id: &str) -> Option<T> {
        self.of(id)?.1.parse().ok()
    }
    pub fn get_str(&self, id: &str) -> Option<&'a str> {
        self.of(id).map(|found| found.1)
    }
    pub fn value_source(&self, id: &str) -> Option<ValueSource> {
        self.of(id).map(|found| found.2)
    }
}
