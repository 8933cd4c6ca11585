//! Patterns of ICU's [`UnicodeSet`], such as `[[:L:]&[a-z]-[aeiou]{ch}]`, as sets of code points and strings.
//!
//! This part of the syntax is read. The set is the one that ICU's `uset_openPattern` returns:
//!
//! | Pattern | Set |
//! |---|---|
//! | `[abx-z{ch}]` | two characters, a range and a string; `-` is a character if it is first or last |
//! | `[[a-z]-[aeiou]]`, `[[a-z]&[a-f]]`, `[[ab][cd]]` | difference, intersection and union, from left to right |
//! | `[^a-z]` | all other code points, and no strings |
//! | `\p{Lu}`, `\p{gc=Lu}`, `\p{Greek}`, `\p{sc=Grek}`, `\p{Alpha}` | a general category, a script, or one of `BINARY` |
//! | `\P{Lu}` | all other code points; `[:Lu:]` is `\p{Lu}`, and `[:^Lu:]` is `\P{Lu}` |
//! | `\u0041`, `\U00000041`, `\x41`, `\x{41}` | a code point, but no half of a surrogate pair |
//! | `\a`, `\t`, `\n`, `\r`, `\-` | control characters; any character but an ASCII letter or digit |
//! | `[a$]` | `a` and, for a `$` that is last, U+FFFF: by this ICU means the start or the end of a text |
//!
//! White space is ignored, also in strings; `\ ` is a space. These commands, in the folder of this crate, make
//! the tables:
//!
//! ```sh
//! U=/usr/share/unicode
//! cp $U/PropertyAliases.txt $U/PropertyValueAliases.txt src
//! ucptrie build $U/extracted/DerivedGeneralCategory.txt --property gc --aliases $U/PropertyValueAliases.txt \
//!     --width 8 --as rust-static --name category -o src/category.rs
//! ucptrie build $U/Scripts.txt --width 8 --as rust-static --name script -o src/script.rs
//! for it in DerivedCoreProperties:Alphabetic DerivedCoreProperties:Lowercase DerivedCoreProperties:Uppercase \
//!     DerivedCoreProperties:XID_Start DerivedCoreProperties:XID_Continue DerivedCoreProperties:Math \
//!     PropList:White_Space PropList:Dash PropList:Hex_Digit PropList:Ideographic emoji/emoji-data:Emoji
//! do
//!     ucptrie set $U/${it%:*}.txt --property ${it#*:} --as rust --name ${it#*:}
//! done > src/binary.rs
//! ```
//!
//! [`UnicodeSet`]: https://unicode-org.github.io/icu/userguide/strings/unicodeset.html
mod binary;
mod category;
mod property;
mod script;

use bekstaudi::codepointinvliststringlist::{
    CodePointInversionListAndStringList, CodePointInversionListAndStringListBuilder as Builder,
};
use std::str::Chars;

/// A set of code points and strings.
pub type Set = CodePointInversionListAndStringList<'static>;

/// The first fault in a pattern: its offset in bytes, and what was expected there.
#[derive(Debug, PartialEq)]
pub struct Fault {
    pub offset: usize,
    pub expected: &'static str,
}

/// Returns the set that a pattern describes.
///
/// ```
/// let set = set_patterns::parse(r"[[:L:] & [a-z] - [aeiou] {ch}]").unwrap();
/// assert!(set.contains('b') && !set.contains('e') && set.contains_str("ch"));
/// assert_eq!(set_patterns::parse("[z-a]").unwrap_err().offset, 4);
/// ```
///
/// # Errors
/// Returns a [`Fault`] if the pattern does not have the syntax above.
pub fn parse(pattern: &str) -> Result<Set, Fault> {
    let mut parser = Parser { rest: pattern.chars() };
    let parsed = parser.set().and_then(|set| match parser.peek() {
        None => Ok(set),
        Some(_) => Err("the end"),
    });
    let offset = pattern.len() - parser.rest.as_str().len();
    parsed.map_err(|expected| Fault { offset, expected })
}

/// The rest of a pattern. An error is what is expected there.
struct Parser<'a> {
    rest: Chars<'a>,
}

type Expected<T> = Result<T, &'static str>;

impl Parser<'_> {
    /// Skips white space, and returns the character after it.
    fn peek(&mut self) -> Option<char> {
        let is_space =
            |c| matches!(c, '\t'..='\r' | ' ' | '\u{85}' | '\u{200E}' | '\u{200F}' | '\u{2028}' | '\u{2029}');
        self.rest = self.rest.as_str().trim_start_matches(is_space).chars();
        self.rest.clone().next()
    }

    /// Takes a text if it is next, after white space, and returns whether it is.
    fn take(&mut self, text: &str) -> bool {
        self.peek();
        let after = self.rest.as_str().strip_prefix(text);
        self.rest = after.unwrap_or(self.rest.as_str()).chars();
        after.is_some()
    }

    /// Returns whether a text is next, and then the end of the items.
    fn is_last(&mut self, text: &str) -> bool {
        let before = self.rest.clone();
        let is_last = self.take(text) && self.peek() == Some(']');
        self.rest = before;
        is_last
    }

    /// Reads a property, or items in brackets.
    fn set(&mut self) -> Expected<Set> {
        let (is_complement, set) = if self.take("\\p{") {
            (false, self.property("}")?)
        } else if self.take("\\P{") {
            (true, self.property("}")?)
        } else if self.take("[:") {
            (self.take("^"), self.property(":]")?)
        } else if self.take("[") {
            (self.take("^"), self.items()?)
        } else {
            return Err("a set");
        };
        Ok(if is_complement { (!set.code_points()).into() } else { set })
    }

    /// Reads the name of a property and the text that ends it.
    fn property(&mut self, end: &'static str) -> Expected<Set> {
        let (name, rest) = self.rest.as_str().split_once(end).ok_or(end)?;
        let set = property::set_of(name).ok_or("a property")?;
        self.rest = rest.chars();
        Ok(set.into())
    }

    /// Reads items and `]`.
    fn items(&mut self) -> Expected<Set> {
        let mut set = Builder::new();
        if self.take("-") {
            self.range('-'.into(), &mut set)?;
        }
        while !self.take("]") {
            if ["[", "\\p", "\\P"].iter().any(|it| self.rest.as_str().starts_with(it)) {
                self.operations(&mut set)?;
            } else if self.take("{") {
                set.add_str(&self.string()?);
            } else if self.is_last("-") && self.take("-") {
                set.add_str("-");
            } else if self.is_last("$") && self.take("$") {
                set.add_str("\u{FFFF}");
            } else {
                let first = self.bound()?;
                self.range(first, &mut set)?;
            }
        }
        Ok(set.build())
    }

    /// Reads a set, and operators with a set after each.
    fn operations(&mut self, set: &mut Builder) -> Expected<()> {
        set.add_set(&self.set()?);
        loop {
            if self.take("&") {
                set.retain_set(&self.set()?);
            } else if !self.is_last("-") && self.take("-") {
                set.remove_set(&self.set()?);
            } else {
                return Ok(());
            }
        }
    }

    /// Reads the characters of a string and `}`.
    fn string(&mut self) -> Expected<String> {
        let mut string = String::new();
        while !self.take("}") {
            string.push(char::from_u32(self.character()?).ok_or("a character that is no surrogate")?);
        }
        Ok(string)
    }

    /// Reads the rest of a range after its first character, which may be the only one.
    fn range(&mut self, first: u32, set: &mut Builder) -> Expected<()> {
        let mut last = first;
        if !self.is_last("-") && self.take("-") {
            last = self.bound()?;
            if last <= first {
                return Err("a last character that is above the first one");
            }
        }
        set.code_points_mut().add_range32(first..=last);
        Ok(())
    }

    /// Reads a character that is no operator.
    fn bound(&mut self) -> Expected<u32> {
        match self.peek() {
            Some('[' | ']' | '{' | '-' | '&' | '^') => Err("a character"),
            Some('$') if self.is_last("$") => Err("a character"),
            _ => self.character(),
        }
    }

    /// Reads any character, or an escape.
    fn character(&mut self) -> Expected<u32> {
        let c = self.rest.next().ok_or("a character")?;
        if c != '\\' {
            return Ok(c.into());
        }
        match self.rest.next().ok_or("an escape")? {
            'a' => Ok(7),
            't' => Ok(9),
            'n' => Ok(10),
            'r' => Ok(13),
            'x' => self.code_point(2),
            'u' => self.code_point(4),
            'U' => self.code_point(8),
            c if c.is_ascii_alphanumeric() => Err("an escape"),
            c => Ok(c.into()),
        }
    }

    /// Reads a code point of so many hexadecimal digits. Instead of two there may be some in braces.
    fn code_point(&mut self, count: usize) -> Expected<u32> {
        let text = self.rest.as_str();
        let (digits, rest) = match text.strip_prefix('{') {
            Some(text) if count == 2 => text.split_once('}'),
            _ => text.split_at_checked(count),
        }
        .ok_or("digits")?;
        let is_half = |c| (0xD800..0xDC00).contains(&c) && rest.starts_with('\\');
        let is_valid = |&c: &u32| (1..=8).contains(&digits.len()) && c <= 0x10FFFF && !is_half(c);
        let number = digits.chars().try_fold(0, |number, c| Some(number << 4 | c.to_digit(16)?));
        let number = number.filter(is_valid).ok_or("a code point")?;
        self.rest = rest.chars();
        Ok(number)
    }
}
