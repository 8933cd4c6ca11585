//# bytes span_utf8
use bekstaudi::codepointinvlist::{CodePointInversionList, FrozenCodePointSet};

let letters = FrozenCodePointSet::freeze(&('a'..='z').collect());
assert_eq!(letters.span_utf8(b"ab\xFFc", true), 2);
assert_eq!(letters.span_utf8(b"\xFFab", false), 0);
//# bytes span_back_utf8
use bekstaudi::codepointinvlist::FrozenCodePointSet;

let letters = FrozenCodePointSet::freeze(&('a'..='z').collect());
assert_eq!(letters.span_back_utf8(b"a\xFFbc", true), 2);
//# frozen FrozenCodePointSet
use bekstaudi::codepointinvlist::{CodePointInversionList, FrozenCodePointSet};

let set = CodePointInversionList::try_from('a'..='z')?;
let letters = FrozenCodePointSet::freeze(&set);
assert!(letters.contains('a') && !letters.contains('A'));
assert_eq!(letters.span("word!", true), 4);
assert_eq!(letters.as_set(), &set);
//# frozen as_words
use bekstaudi::codepointinvlist::{FrozenCodePointSet, FrozenView};

let letters = FrozenCodePointSet::freeze(&('A'..='Z').collect());
let words = letters.as_words();
let view = FrozenView::new(words);
assert!(view.contains('A') && !view.contains('a'));
//# lossy_spans span_utf8_lossy
use bekstaudi::codepointinvlist::FrozenCodePointSet;

let letters = FrozenCodePointSet::freeze(&('a'..='z').collect());
assert_eq!(letters.span_utf8_lossy(b"ab\xFFc", true), 2);
assert_eq!(letters.span_utf8_lossy(b"\xFF1a", false), 2);
//# lossy_spans span_back_utf8_lossy
use bekstaudi::codepointinvlist::FrozenCodePointSet;

let letters = FrozenCodePointSet::freeze(&('a'..='z').collect());
assert_eq!(letters.span_back_utf8_lossy(b"a1\xFF", false), 1);
//# spans spans
use bekstaudi::codepointinvlist::FrozenCodePointSet;

let letters = FrozenCodePointSet::freeze(&('a'..='z').collect());
let spans: Vec<_> = letters.spans("ab, c").map(|it| (it.text, it.is_held)).collect();
assert_eq!(spans, [("ab", true), (", ", false), ("c", true)]);
//# text_sets FrozenCodePointSetAndStrings
use bekstaudi::codepointinvlist::FrozenCodePointSetAndStrings;

let words = FrozenCodePointSetAndStrings::freeze(&["a", "abc"].into_iter().collect());
assert!(words.contains_str("abc") && words.contains_str("a"));
assert!(!words.contains_str("ab"));
//# view FrozenView
use bekstaudi::codepointinvlist::{FrozenCodePointSet, FrozenView};

let letters = FrozenCodePointSet::freeze(&('a'..='z').collect());
let words: Vec<u64> = letters.as_words().to_vec();
let view = FrozenView::new(&words);
assert_eq!(view.span_utf8(b"ab\xFF", true), 2);
assert_eq!(view.span_utf16(&[0x61, 0xD800], true), 1);
