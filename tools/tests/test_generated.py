"""What docs/DEFINITIONS-INDEX.md and docs/layers.svg are made of: sections, contracts, and the layers of crates.txt."""
import importlib.machinery
import importlib.util
import unittest

from running import ROOT

CODE = """
/// Whether it is so.
/// More of it.
impl Desk {
    pub fn take(&mut self) -> Option<Frame>
        requires { is_asked self }
        ensures { result ≡ oldest self.old }
    {
        self.queue.take()
    }
}

/// It is always so: also here.
pub fn is_always_so()
    ensures { (h : List Timed) → IsSo h }
{}
"""


def script(name):
    loader = importlib.machinery.SourceFileLoader(name.replace("-", "_"), str(ROOT / "tools" / name))
    module = importlib.util.module_from_spec(importlib.util.spec_from_loader(loader.name, loader))
    loader.exec_module(module)
    return module


class TestIndex(unittest.TestCase):
    index = script("index-definitions")

    def test_sections_are_named_one_by_one_or_together(self):
        self.assertEqual(self.index.sections_in("after section 3.4, and sections 4.6, 5.3.3 and 5.1"), ("3.4", "4.6", "5.3.3", "5.1"))
        self.assertEqual(self.index.sections_in("this proxy's own rule"), ())

    def test_functions_have_their_contracts_and_laws_no_body(self):
        take, law = self.index.functions_of(CODE)
        self.assertEqual((take.name, take.is_public, take.is_law), ("Desk::take", True, False))
        self.assertIn("oldest", take.contract)
        self.assertNotIn("is_asked", take.contract)
        self.assertEqual((law.name, law.is_law, law.says), ("is_always_so", True, "It is always so: also here."))

    def test_imports_go_by_the_name_that_is_used(self):
        imports = self.index.imports_of("ghost use Rattle.of10_flow.specs.Tables.{touches, overlaps as meets};")
        self.assertEqual(imports, {"touches": ("of10_flow", "Tables", "touches"), "meets": ("of10_flow", "Tables", "overlaps")})


class TestLayers(unittest.TestCase):
    def test_layers_are_the_headings_but_for_tests(self):
        text = "# each crate\n\n# wire: messages\nof10_model: byteorder\n\n# tests: nothing else\nsamples: of10_model\n"
        self.assertEqual(script("draw-layers").layers(text), [("wire", "messages", ["of10_model"])])
