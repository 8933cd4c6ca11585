//# codepointinvliststringlist/json to_json
use bekstaudi::codepointinvliststringlist::CodePointInversionListAndStringList;

let set: CodePointInversionListAndStringList = ["a", "abc"].into_iter().collect();
let text = set.to_json()?.to_string();
assert_eq!(text, r#"{"cp_inv_list":["a"],"str_list":["abc"]}"#);
//# codepointinvliststringlist/json from_json
use bekstaudi::codepointinvliststringlist::CodePointInversionListAndStringList;

let value = serde_json::json!({"cp_inv_list": ["a"], "str_list": ["abc"]});
let set = CodePointInversionListAndStringList::from_json(&value)?;
assert!(set.contains('a') && set.contains_str("abc"));
//# codepointinvliststringlist/make try_from_iter
use bekstaudi::codepointinvliststringlist::CodePointInversionListAndStringList;

let texts = ["a", "abc", "xyz", "abc"];
let set = CodePointInversionListAndStringList::try_from_iter(texts.into_iter())?;
assert!(set.contains('a'));
assert_eq!(set.strings(), ["abc", "xyz"]);
//# codepointinvliststringlist/set CodePointInversionListAndStringList
use bekstaudi::codepointinvliststringlist::CodePointInversionListAndStringList;

let texts = ["a", "abc", "xyz", "abc"];
let set: CodePointInversionListAndStringList = texts.into_iter().collect();
assert!(set.contains('a') && set.contains_str("abc"));
assert!(!set.contains_str("ab"));
assert_eq!(set.size(), 3);
