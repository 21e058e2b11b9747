#!/usr/bin/env python3
"""What `docs/contracts` prints of a source, and of the crates that there are."""
import pathlib
import subprocess
import unittest

CONTRACTS = pathlib.Path(__file__).resolve().parent / "contracts"
SOURCE = """//! A file.

/// A pair.
#[derive(Drop)]
pub struct Pair {
    /// Not shown: it is no item.
    pub left: u32,
}

impl Pair {
    /// Its sum.
    #[inline]
    pub fn sum(&self) -> u32
        requires { small self }
        ensures { result ≡ self.left }
    {
        let more = 1;
        self.left + more
    }

    // Not shown: no doc comment.
    pub fn hidden(&self) {}

    /// The left one.
    pub fn left(&self) -> u32 {
        self.left
    }
}

/// Adds.
pub trait Adds {
    /// One more.
    fn add(&mut self) -> Result<(), Full>
        ensures adds { OnOk result (count self.new ≡ 1) }
        ensures keeps { OnErr result (self.new ≡ self.old) };
}

/// The most.
pub const MOST: u32 = 3;

/// A law.
pub fn law()
    ensures { MOST ≡ 3 }
{}
"""
CONTRACT = """/// A pair.
pub struct Pair

impl Pair

    /// Its sum.
    pub fn sum(&self) -> u32
        requires { small self }
        ensures { result ≡ self.left }

    /// The left one.
    pub fn left(&self) -> u32

/// Adds.
pub trait Adds

    /// One more.
    fn add(&mut self) -> Result<(), Full>
        ensures adds { OnOk result (count self.new ≡ 1) }
        ensures keeps { OnErr result (self.new ≡ self.old) };

/// The most.
pub const MOST: u32 = 3;

/// A law.
pub fn law()
    ensures { MOST ≡ 3 }
"""


def told(*words):
    return subprocess.run([CONTRACTS, *words], capture_output=True, text=True)


class Contracts(unittest.TestCase):
    def test_items_with_a_doc_comment_are_shown_up_to_their_bodies(self):
        names = {"__name__": "contracts", "__file__": str(CONTRACTS)}
        exec(CONTRACTS.read_text(), names)
        self.assertEqual("\n\n".join("\n".join(item) for item in names["contracts_of"](SOURCE)) + "\n", CONTRACT)

    def test_each_clause_of_a_call_is_there(self):
        text = told("sup_keeper").stdout
        self.assertIn("== crates/sup_keeper/src/keeper.rt", text)
        for clause in ("ensures leaves", "ensures refused", "ensures steady"):
            self.assertIn(clause, text)

    def test_all_crates_are_told_where_none_is_named(self):
        text = told().stdout
        self.assertIn("== crates/sup_specs/src/node_name.rt", text)
        self.assertIn("== crates/sup_supd/src/program.rt", text)

    def test_a_crate_that_is_not_there_is_named(self):
        run = told("sup_links", "sup_nothing")
        self.assertEqual((run.returncode, run.stdout, run.stderr), (2, "", "docs/contracts: no crate sup_nothing\n"))

    def test_an_option_is_answered_by_the_usage(self):
        run = told("--help")
        self.assertEqual(run.returncode, 2)
        self.assertIn("usage: docs/contracts [CRATE..]", run.stdout)


if __name__ == "__main__":
    unittest.main()
