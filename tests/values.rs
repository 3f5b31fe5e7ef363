//! Texts and slices as values and names of members of JSON and TOML, in structs that derive the
//! traits of `serde`, and in logs.
use crate::steps::{count, made, part};
use arcstr::{ArcStr, JsonFault, Substr};
use log::kv::ToValue;
use serde::{Deserialize, Serialize};
use serde_json::{Value, json};
use std::test::Fail;
use toml::toml;

#[derive(Drop, Serialize, Deserialize)]
struct Entry {
    name: ArcStr,
    value: Substr,
}

#[test]
fn a_struct_of_texts_is_written_and_read_as_json(ref rt: HostRuntime) -> Result<(), Fail> {
    let (alloc, name) = (rt.alloc(), made(rt, "key=\"é\""));
    let entry = &Entry {
        value: part(rt, &name, 4..),
        name,
    };
    let json = serde_json::to_string(alloc, entry)?;
    assert_eq!(rt;
        json.as_str(),
        "{\"name\":\"key=\\\"é\\\"\",\"value\":\"\\\"é\\\"\"}"
    );
    assert_eq!(rt; count(&entry.name), Some(2));
    let read: Entry = serde_json::from_str(alloc, json.as_str())?;
    assert!(rt; read.name == entry.name && read.value == entry.value);
    assert_eq!(rt; read.value.range(), 0..4);
    assert_eq!(rt;
        (count(&read.name), count(read.value.parent())),
        (Some(1), Some(1))
    );
    let read: Entry = serde_json::from_str(alloc, "{\"name\":\"\",\"value\":\"\"}")?;
    assert!(rt; ArcStr::is_static(&read.name) && ArcStr::is_static(read.value.parent()));
    Ok(())
}

/// The code that docs/GUIDE.md shows.
#[test]
fn a_struct_of_texts_is_read_from_json(rt: HostRuntime) -> Result<(), Fail> {
    let json = "{\"value\":\"\\u00e9 b\",\"name\":\"ab\"}";
    let entry: Entry = serde_json::from_str(rt.alloc(), json)?;
    assert_eq!(rt; entry.name.as_str(), "ab");
    assert_eq!(rt; entry.value.as_str(), "é b");
    Ok(())
}

#[test]
fn other_values_are_no_texts(ref rt: HostRuntime) -> Result<(), Fail> {
    let alloc = rt.alloc();
    for json in ["null", "true", "[]", "12", "{}"] {
        let value = &Value::from_str(alloc, json)?;
        assert_eq!(rt;
            ArcStr::from_json(alloc, value).err(),
            Some(JsonFault::NotText)
        );
        assert_eq!(rt;
            Substr::from_json(alloc, value).err(),
            Some(JsonFault::NotText)
        );
        let (text, slice): (Result<ArcStr, _>, Result<Substr, _>) = (
            serde_json::from_str(alloc, json),
            serde_json::from_str(alloc, json),
        );
        assert!(rt; text.is_err() && slice.is_err());
    }
    Ok(())
}

#[test]
fn texts_are_values_and_names_of_members(ref rt: HostRuntime) -> Result<(), Fail> {
    let (alloc, text) = (rt.alloc(), &made(rt, "a\"b"));
    let (slice, name) = (&part(rt, text, 2..), &made(rt, "a"));
    let mut value = json!(in alloc; {"a": text, "b": [slice, 1]})?;
    assert_eq!(rt;
        value.to_string(alloc)?.as_str(),
        "{\"a\":\"a\\\"b\",\"b\":[\"b\",1]}"
    );
    assert!(rt; value.get(slice).is_some_and(|list| list.is_array()));
    assert!(rt; value.get(name).is_some() && value.get(text).is_none());
    *value.get_mut(name).ok_or("no member")? = Value::Null;
    *value.get_mut(slice).ok_or("no member")? = Value::from(3u8);
    assert!(rt; value.get_mut(text).is_none());
    assert_eq!(rt; value.to_string(alloc)?.as_str(), "{\"a\":null,\"b\":3}");
    assert_eq!(rt; (count(text), count(name)), (Some(2), Some(1)));
    Ok(())
}

#[test]
fn texts_are_toml_values_and_find_them(ref rt: HostRuntime) -> Result<(), Fail> {
    let (alloc, text) = (rt.alloc(), &made(rt, "a\"b"));
    let (slice, name) = (&part(rt, text, 2..), &made(rt, "a"));
    let table = toml!(in alloc; a = (text) b = [(slice), 1])?;
    let written = toml::table_to_string(alloc, &table)?;
    assert_eq!(rt; written.as_str(), "a = 'a\"b'\nb = [\"b\", 1]\n");
    let mut value: toml::Value = toml::from_str(alloc, "a = 1\nb = 2")?;
    assert!(rt;
        value
            .get(name)
            .is_some_and(|member| member.as_integer() == Some(1))
    );
    assert!(rt;
        value
            .get(slice)
            .is_some_and(|member| member.as_integer() == Some(2))
    );
    assert!(rt; value.get(text).is_none() && value.get_mut(text).is_none());
    *value.get_mut(name).ok_or("no member")? = toml::Value::Integer(3);
    *value.get_mut(slice).ok_or("no member")? = toml::Value::Integer(4);
    assert!(rt;
        value
            .get("a")
            .is_some_and(|member| member.as_integer() == Some(3))
    );
    assert!(rt;
        value
            .get("b")
            .is_some_and(|member| member.as_integer() == Some(4))
    );
    assert_eq!(rt; (count(text), count(name)), (Some(2), Some(1)));
    Ok(())
}

#[test]
fn texts_are_logged_without_a_copy(ref rt: HostRuntime) {
    let text = &made(rt, "foobar");
    let slice = &part(rt, text, 3..);
    assert!(rt; matches!(text.to_value(), log::kv::Value::Str("foobar")));
    assert!(rt; matches!(slice.to_value(), log::kv::Value::Str("bar")));
    assert_eq!(rt; count(text), Some(2));
}
