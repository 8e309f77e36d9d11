//! Whole maps: read, looked up, written back, refused.

use peghayrick::{Refusal, Stop, Token};
use peghayrick_map::{Error, Map, Step};
use serde_json::{json, Value};

/// The sample map of the repository, as JSON.
fn lysis() -> Value {
    json!({
        "version": 3,
        "file": "lysis.min.js",
        "sourceRoot": "protocols/",
        "sources": ["main.js", "steps/\"lysis\" \u{2014} 2.js"],
        "sourcesContent": [null, "// steps\n"],
        "names": ["deck", "spin", "w\u{e4}sche"],
        "mappings": "AAAA,IAAMA;A;ECWN,OAAEC,qBACEC;;AA4BJD",
        "ignoreList": [0],
        "debugId": "85314830-023f-4cf1-a267-535f4e37bb17",
    })
}

fn read(value: &Value) -> Result<Map, Error> {
    Map::from_json_string(&value.to_string())
}

fn with(key: &str, value: Value) -> Value {
    let mut map = lysis();
    map[key] = value;
    map
}

fn without(keys: &[&str]) -> Value {
    let mut map = lysis();
    for key in keys {
        map.as_object_mut().unwrap().remove(*key);
    }
    map
}

#[test]
fn everything_is_read() {
    let map = read(&lysis()).unwrap();
    assert_eq!((map.file.as_deref(), map.source_root.as_deref()), (Some("lysis.min.js"), Some("protocols/")));
    assert_eq!(map.sources, ["main.js", "steps/\"lysis\" \u{2014} 2.js"]);
    assert_eq!(map.sources_content, [None, Some("// steps\n".to_owned())]);
    assert_eq!(map.names, ["deck", "spin", "w\u{e4}sche"]);
    assert_eq!(map.ignore_list.as_deref(), Some(&[0][..]));
    assert_eq!(map.debug_id.as_deref(), Some("85314830-023f-4cf1-a267-535f4e37bb17"));
    assert_eq!(map.tokens().len(), 7);
    assert_eq!(map.tokens()[1], Token::new(0, 4, 0, 6, Some(0), Some(0)).with_segment(Some(5)));
    assert_eq!(map.tokens()[2], Token::new(1, 0, 0, 6, None, None).with_segment(Some(11)));
}

#[test]
fn steps() {
    let map = read(&lysis()).unwrap();
    let steps = |line, column, want| assert_eq!(map.lookup(line, column).unwrap(), want, "{line}:{column}");
    let lysis = "steps/\"lysis\" \u{2014} 2.js";
    let step = |source, line, column, name, mappings| Some(Step { source, line, column, name, mappings });
    steps(0, 0, step("main.js", 0, 0, None, ["", "AAAA", ",IAAMA"]));
    steps(0, 9, step("main.js", 0, 6, Some("deck"), ["AAAA,", "IAAMA", ""]));
    steps(2, 9, step(lysis, 11, 2, Some("spin"), ["ECWN,", "OAAEC", ",qBACEC"]));
    steps(2, 31, step(lysis, 12, 4, Some("w\u{e4}sche"), ["ECWN,OAAEC,", "qBACEC", ""]));
    steps(4, 0, step(lysis, 40, 0, Some("spin"), ["", "AA4BJD", ""]));
    steps(1, 7, None); // a token without a source
    steps(2, 1, None); // before the line's first token
    steps(3, 0, None); // a line without tokens
    steps(5, 0, None);
    steps(u32::MAX, u32::MAX, None);
}

#[test]
fn written_back() {
    let map = read(&lysis()).unwrap();
    let text = map.to_json_string().unwrap();
    assert_eq!(serde_json::from_str::<Value>(&text).unwrap(), lysis());
    assert_eq!(Map::from_json_string(&text).unwrap(), map);
    // The crate's order.
    let keys = ["version", "file", "sourceRoot", "names", "sources", "sourcesContent", "ignoreList", "mappings", "debugId"];
    let places: Vec<usize> = keys.iter().map(|key| text.find(&format!("\"{key}\":")).unwrap()).collect();
    assert!(places.is_sorted(), "{text}");
}

#[test]
fn what_may_be_missing() {
    let bare = json!({ "version": 3, "sources": [], "mappings": "" });
    let map = read(&bare).unwrap();
    assert_eq!(map.lookup(0, 0).unwrap(), None);
    assert_eq!(map.to_json_string().unwrap(), r#"{"version":3,"names":[],"sources":[],"mappings":""}"#);
    // Contents that are all null are not written.
    let map = read(&with("sourcesContent", json!([null, null]))).unwrap();
    assert!(!map.to_json_string().unwrap().contains("sourcesContent"));
    // Null is as good as missing, and keys that are not known are passed over.
    let map = read(&json!({ "version": 3, "file": null, "sources": [], "mappings": ";;", "x_other": {} })).unwrap();
    assert_eq!((map.file.as_deref(), map.mappings().unwrap().as_str()), (None, ""));
}

#[test]
fn mappings_that_are_not_written_as_they_stand() {
    for (from, to) in [("AAAA;;", "AAAA"), ("AAAA,,A", "AAAA,A"), (",AAAA", "AAAA"), ("gAAAA", "AAAA")] {
        let map = read(&with("mappings", json!(from))).unwrap();
        assert_eq!(map.mappings().unwrap(), to);
        let again = read(&with("mappings", json!(to))).unwrap();
        assert_eq!(again.tokens().len(), map.tokens().len());
        assert!(again.tokens().iter().zip(map.tokens()).all(|(a, b)| a.same_mapping(b)));
    }
}

#[test]
fn the_ignore_list() {
    let mut map = without(&["ignoreList"]);
    map["x_google_ignoreList"] = json!([1]);
    assert_eq!(read(&map).unwrap().ignore_list.as_deref(), Some(&[1][..]));
    map["ignoreList"] = Value::Null;
    assert_eq!(read(&map).unwrap().ignore_list.as_deref(), Some(&[1][..]));
    map["ignoreList"] = json!([0]);
    map["x_google_ignoreList"] = json!("anything");
    assert_eq!(read(&map).unwrap().ignore_list.as_deref(), Some(&[0][..]));
    map["ignoreList"] = Value::Null;
    assert!(matches!(read(&map), Err(Error::Json(_))));
    assert!(matches!(read(&with("ignoreList", json!([0, 2]))), Err(Error::IgnoreList(2))));
    assert_eq!(read(&without(&["ignoreList"])).unwrap().ignore_list, None);
}

#[test]
fn refusals() {
    for json in ["", "{", "[]", "3", r#"{"version":3}"#] {
        assert!(matches!(Map::from_json_string(json), Err(Error::Json(_))), "{json}");
    }
    for key in ["version", "sources", "mappings"] {
        assert!(matches!(read(&without(&[key])), Err(Error::Json(_))), "{key}");
    }
    assert!(matches!(read(&with("sources", json!(["main.js", null]))), Err(Error::Json(_))));
    let index = json!({ "version": 3, "sections": [] });
    assert!(read(&index).unwrap_err().to_string().contains("missing field"));
    for version in [0u64, 2, 4, 4294967299] {
        assert!(matches!(read(&with("version", json!(version))), Err(Error::Version(v)) if v == version));
    }
    let refused = |mappings: &str| match read(&with("mappings", json!(mappings))) {
        Err(Error::Refused(refusal)) => refusal,
        other => panic!("{other:?}"),
    };
    let at = |offset| Stop { tokens: 1, offset };
    assert_eq!(refused("AAAA,AAA"), Refusal::BadSegmentSize { fields: 3, at: at(5) });
    assert_eq!(refused("AAAA,AEAA"), Refusal::BadSourceReference { source_id: 0, at: at(6) });
    assert_eq!(refused("AAAA,AAAAG"), Refusal::BadNameReference { name_id: 3, at: at(9) });
    // The crate drops the upper bits, and shows column 0.
    assert_eq!(refused("AAAA,ggggggI"), Refusal::WideValue { field: 0, at: at(5) });
    // The crate takes a value of 2^31, and minus zero as 0.
    assert_eq!(refused("AAAA,ggggggE"), Refusal::WideValue { field: 0, at: at(5) });
    assert_eq!(refused("AAAA,B"), Refusal::BadSegmentSize { fields: 0, at: at(5) });
    assert!(read(&with("mappings", json!("AAAA,AAA"))).unwrap_err().to_string().contains("build the bundle and its map again"));
}
