#!/usr/bin/env python3
"""Tests extract.py on source whose strings, characters, comments and lifetimes hold brackets."""
import unittest

from extract import NotFound, extract, sections_of, with_standins

SOURCE = r'''//! A file's own comment with a { in it.

use std::{fmt, mem};

/* a block comment /* that nests */ with fn plain() { */
/// Doc with a } brace.
#[derive(
    Clone,
)]
pub struct Pair<'a> {
    pub a: &'a str, // '}'
}

pub(crate) type P = [f64; 2];
const LIMIT: usize = { 4 };
struct Unit;

impl<'a> Pair<'a> {
    /// The first.
    pub fn first(&self) -> &'a str {
        let c = '{';
        let d = '\'';
        let e = '\u{7b}';
        if c == d || e == '"' { "}\"{" } else { r#"{"}"# }
    }

    const fn second(&self) -> u8 { b'{' }
}

impl fmt::Debug for Pair<'_> {
    fn fmt(&self, f: &mut fmt::Formatter<'_>) -> fmt::Result { write!(f, "{{{}", self.a) }
}

fn plain(x: [f64; 2]) -> f64 { x[0].hypot(x[1]) /* .hypot( */ }
'''


class Extract(unittest.TestCase):
    def test_items(self):
        self.assertEqual(extract(SOURCE, "type P"), "pub(crate) type P = [f64; 2];")
        self.assertEqual(extract(SOURCE, "const LIMIT"), "const LIMIT: usize = { 4 };")
        self.assertEqual(extract(SOURCE, "struct Unit"), "struct Unit;")
        self.assertEqual(extract(SOURCE, "fn plain"), SOURCE.split("\n\n")[-1].rstrip())

    def test_attributes_and_docs_stay(self):
        text = extract(SOURCE, "struct Pair")
        self.assertIn("/// Doc with a } brace.\n#[derive(", text)
        self.assertTrue(text.endswith("// '}'\n}"))

    def test_functions_of_a_block(self):
        text = extract(SOURCE, "impl <'a> Pair<'a> { first }")
        self.assertIn('r#"{"}"# }\n    }\n}', text)
        self.assertNotIn("second", text)
        self.assertIn("b'{'", extract(SOURCE, "impl <'a> Pair<'a> { second first }"))

    def test_whole_block(self):
        text = extract(SOURCE, "impl fmt::Debug for Pair<'_>")
        self.assertTrue(text.startswith("impl fmt::Debug") and text.endswith("self.a) }\n}"))

    def test_missing(self):
        for name in ("fn first", "fn absent", "impl Pair"):
            with self.assertRaises(NotFound):
                extract(SOURCE, name)

    def test_standin(self):
        text = with_standins(extract(SOURCE, "fn plain"))
        self.assertIn("x[0].hypot_standin(x[1]) /* .hypot( */", text)

    def test_sections(self):
        self.assertEqual(
            sections_of(["# c", "[a] src/b.rs", "fn x # why", "", "impl T { f g }"]),
            [("a", "src/b.rs", ["fn x", "impl T { f g }"])],
        )


if __name__ == "__main__":
    unittest.main()
