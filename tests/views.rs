//! Views and ranges that no question of `tools/ask` has: near `usize::MAX`, spent, and printed.
use crate::steps::{made, part};
use arcstr::literal;
use arcstr_range::range::StrRange;
use arcstr_range::view::StrView;
use std::test::Fail;

/// Asserts that the parts of a view of the text that ends at `usize::MAX` are those of the text.
macro_rules! check_parts {
    ($rt:expr, $text:expr; $($parts:ident($($pattern:expr)?) => $wanted:ident),+ $(,)?) => {
        $(
            let start = usize::MAX - $text.len();
            let mut parts = StrView::at($text, start).ok_or("no view")?.$parts($($pattern)?);
            for wanted in $text.$wanted($($pattern)?) {
                let part = parts.next().ok_or("a part less")?;
                let place = part.place() - start;
                assert_eq!($rt; part.text(), wanted);
                assert!($rt; $text.get(place..).is_some_and(|rest| rest.starts_with(wanted)));
            }
            assert!($rt; parts.next().is_none() && parts.next().is_none());
        )+
    };
}

#[test]
fn views_near_the_greatest_place_are_split(ref rt: HostRuntime) -> Result<(), Fail> {
    for text in [
        "",
        "\r\n",
        "é\r\n…\n\n😀",
        " a\u{3000}b,,c \n",
        ",",
        "a\r\r\n,",
    ] {
        check_parts!(rt, text;
            lines() => lines,
            split_whitespace() => split_whitespace,
            split(',') => split,
            split_by(",") => split,
            split_by("") => split,
        );
    }
    assert!(rt; StrView::at("ab", usize::MAX - 1).is_none());
    Ok(())
}

#[test]
fn views_of_one_text_are_equal_wherever_they_stand(ref rt: HostRuntime) -> Result<(), Fail> {
    let view = StrView::at("é", 4).ok_or("no view")?;
    assert!(rt; view == StrView::whole("é") && view != StrView::whole("e"));
    let printed = format!(in rt.alloc(); "{view:?}")?;
    assert_eq!(rt; printed.as_str(), "StrView { text: \"é\", place: 4 }");
    let mut spent = 1..=1;
    assert_eq!(rt; spent.next(), Some(1));
    assert_eq!(rt; StrRange::from(spent), StrRange::Between(1, 1));
    Ok(())
}

/// Lines and columns count from 1, and columns count characters.
#[test]
fn lines_and_columns_are_counted_from_one(ref rt: HostRuntime) {
    let text = literal!("aé\r\n\nb");
    for (place, wanted) in [
        (0, Some((1, 1))),
        (1, Some((1, 2))),
        (2, None),
        (3, Some((1, 3))),
        (4, Some((1, 4))),
        (5, Some((2, 1))),
        (6, Some((3, 1))),
        (7, Some((3, 2))),
        (8, None),
    ] {
        let at = text.line_and_column(place).map(|at| (at.line, at.column));
        assert_eq!(rt; at, wanted);
    }
    let at = part(rt, &made(rt, "a\nbé\n"), 5..).line_and_column();
    assert_eq!(rt; (at.line, at.column), (2, 3));
}
