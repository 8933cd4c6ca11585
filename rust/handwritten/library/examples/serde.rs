//! Sets and tries to and from JSON. Any other format of serde works in the same way.

use bekstaudi::codepointinvlist::CodePointInversionList;
use bekstaudi::codepointtrie::CodePointTrie;
use bekstaudi::codepointtrie::planes::get_planes_trie;

/// A file's own type. Fields that may borrow from the input need the attribute `borrow`.
#[derive(serde::Deserialize)]
struct Config<'data> {
    name: String,
    #[serde(borrow)]
    letters: CodePointInversionList<'data>,
}

fn main() -> serde_json::Result<()> {
    let set: CodePointInversionList = serde_json::from_str(r#"["A-Z","_"]"#)?;
    assert!(set.contains('Q') && set.contains('_'));
    println!("{}", serde_json::to_string(&set)?);

    let config: Config = serde_json::from_str(r#"{"name":"hexadecimal","letters":["A-F","a-f"]}"#)?;
    println!("{}: {} letters", config.name, config.letters.size());

    let text = serde_json::to_string(&get_planes_trie())?;
    let planes: CodePointTrie<u8> = serde_json::from_str(&text)?;
    assert_eq!(planes.get('\u{1F600}'), 1);

    // Ranges that are not ascending are not a set.
    let error = serde_json::from_str::<CodePointInversionList>(r#"["B","A"]"#);
    println!("{}", error.expect_err("a set"));
    Ok(())
}
