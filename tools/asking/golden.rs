//! What std cannot answer, since it is the kit's std: the hash and the `Debug` output of a text in
//! Rust. Those of a text of the Rust crate `arcstr` 1.2.0 are those of a `str`.

use crate::asked::{Asked, Machine, same};
use crate::values::hash_of;
use anyhow::{Context, Result};
use arcstr::{ArcStr, Substr};

/// Texts, the hash of each by Rust's `DefaultHasher`, and its `{:?}`, as Rust 1.95 computes them.
const TEXTS: [(&str, u64, &str); 24] = [
    ("", 0x30406ea523c53def, "\"\""),
    ("foobar", 0xb9fea8630a042954, "\"foobar\""),
    ("\u{e9}", 0xd6e909f7d92e03b3, "\"\u{e9}\""),
    ("\u{4e2d}", 0x44672c4c749e96b3, "\"\u{4e2d}\""),
    ("\u{1f600}", 0x475a0576ba65c119, "\"\u{1f600}\""),
    ("\u{0}", 0xda5735e7144b8d9f, "\"\\0\""),
    ("\u{d}\u{a}", 0xabad7c40cc75e6ec, "\"\\r\\n\""),
    ("\"", 0x84e0517719db6a59, "\"\\\"\""),
    ("\\", 0xbb239c531c389dd6, "\"\\\\\""),
    ("e\u{301}", 0x3191a6ce1a2b38fc, "\"e\\u{301}\""),
    ("\u{301}e", 0xe99012fd5c2fb57a, "\"\\u{301}e\""),
    ("\u{7ff}", 0x4a5b315d6fa2f09a, "\"\u{7ff}\""),
    ("\u{800}", 0x11b252ab776a5a7a, "\"\u{800}\""),
    ("\u{200b}", 0x7a4f2b06249359ca, "\"\\u{200b}\""),
    ("\u{2028}", 0x20fd389b14b9eeed, "\"\\u{2028}\""),
    ("\u{202e}", 0x92f9407063ce314a, "\"\\u{202e}\""),
    ("\u{2060}", 0x5720757d8b5f2ec8, "\"\\u{2060}\""),
    ("\u{304b}\u{3099}", 0x7ccb2ea90426f280, "\"\u{304b}\\u{3099}\""),
    ("\u{2764}\u{fe0f}", 0x607ff7caeb7b76c9, "\"\u{2764}\\u{fe0f}\""),
    ("\u{fffd}", 0x59a677747911ddc8, "\"\u{fffd}\""),
    ("\u{10000}", 0x872b3fe324fb84a6, "\"\u{10000}\""),
    ("\u{1f469}\u{200d}\u{1f680}", 0xd4db9699a742a237, "\"\u{1f469}\\u{200d}\u{1f680}\""),
    ("\u{10ffff}", 0x9b26ef0e0db13a99, "\"\\u{10ffff}\""),
    ("\u{939}\u{93f}\u{928}\u{94d}", 0xf433c7548f2f3af3, "\"\u{939}\u{93f}\u{928}\\u{94d}\""),
];

/// The hashes of the first digits of `DIGITS`, from none on.
const HASHES: [u64; 33] = [
    0x30406ea523c53def, 0xfc6647014fb554e5, 0xfeb1fdde74b8c8ec, 0x9ec937f6301349ea,
    0xa2ac2dbeb0cf80e4, 0xd8c42706cb713c73, 0x6e484d505bd4e675, 0x73aba660808c83e2,
    0x5afa6202e1213f4d, 0x4ac3a8f2cb7e217a, 0x3a4f0b804ace0c65, 0x8fd637272703e1db,
    0xc7233f1075d45e74, 0x3846c4b1b3b80af4, 0xd346f484f67f879a, 0x37c04715d9de89db,
    0xc083e31a017b0d26, 0x0941c14bf1df01a3, 0x835f7ba7629a70a9, 0x65acf02c053f0e25,
    0x02f3875b877046c3, 0xb638bcf0aa851508, 0xf261f7f898958351, 0x1804215602057ea0,
    0x30c2bceff68ca7fd, 0x9b59a519439375f6, 0x9a9d9aef3b14a44e, 0x52197cbb7d10b019,
    0xebf158ef8e36032a, 0x8eb73c67b6e4fc86, 0x7c91ab24ae777d9e, 0x598ee6a20bffb93c,
    0xdf7b9d4a3bbbcaec,
];

const DIGITS: &str = "01234567890123456789012345678901";

/// The first of 256 characters, and the hash of the `{:?}` of a text of them.
const BLOCKS: [(u32, u64); 21] = [
    (0x0, 0x2e5cbcd6ae591e62), (0x300, 0xc4ee290e01abc771),
    (0x600, 0x567a7ba4bcc51625), (0x900, 0xf0cea98b36650671),
    (0xe00, 0xb9ab170d04849fa4), (0x1600, 0xb8eefbd79421dbac),
    (0x1800, 0xeff37274535093d3), (0x2100, 0xa3722f90d3168ec0),
    (0x3000, 0xe7f44833b0764b56), (0x4e00, 0x635f6e784fbdd146),
    (0xd700, 0xeccd84eb94daf426), (0xe000, 0x5d18a1aeb678abbb),
    (0xfb00, 0xa6326ac75bd4651a), (0xfe00, 0x48247daf03638d89),
    (0xff00, 0x89d8e9cea653bc66), (0x10000, 0xa59024cb8d554430),
    (0x1f300, 0x2886e967e0392649), (0x20000, 0xee426555425ff65e),
    (0xe0000, 0x1c3c427601f5e7b8), (0xf0000, 0xa7ba93c76b76b197),
    (0x10ff00, 0x4683d5dee3205d64),
];

pub(crate) fn texts<R: Machine>(asked: &mut Asked<'_, R>) -> Result<()> {
    for (text, hash, debug) in TEXTS {
        let whole = ArcStr::from_str(asked.alloc, text)?;
        let slice = Substr::full(whole.clone(asked.rt));
        same!(asked; (hash_of(&whole), hash_of(&slice)), (hash, hash));
        same!(asked; format!(in asked.alloc; "{whole:?}")?.as_str(), debug);
        same!(asked; format!(in asked.alloc; "{slice:?}")?.as_str(), debug);
    }
    let digits = ArcStr::from_str(asked.alloc, DIGITS)?;
    for (len, hash) in HASHES.iter().enumerate() {
        same!(asked; (len, hash_of(&digits.substr(asked.rt, ..len)?)), (len, *hash));
    }
    for (first, hash) in BLOCKS {
        let characters = (first..first + 256).filter_map(char::from_u32);
        let text = characters.collect::<ArcStr>(asked.alloc)?;
        same!(asked; (first, hash_of(&format!(in asked.alloc; "{text:?}")?)), (first, hash));
    }
    Ok(())
}
