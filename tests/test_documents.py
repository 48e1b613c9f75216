"""README and the other documents: their commands print what they say, their code is that of the files, their tables agree."""
import os
import re
import textwrap
import unittest

from support import OK, ROOT, CommandTest

import listing
import refusals


def text(name):
    return (ROOT / name).read_text()


def blocks(name, kind=""):
    """The fenced blocks of a document that are marked with the kind."""
    found = re.findall(r"^```(.*)\n((?:(?!```).*\n)*)```$", text(name), re.MULTILINE)
    return [content for mark, content in found if mark == kind]


def commands(name):
    """Each command behind a $ in a document, and what is printed after it there."""
    for block in blocks(name):
        for part in re.split(r"^\$ ", block, flags=re.MULTILINE)[1:]:
            command, printed = part.split("\n", 1)
            yield command, printed


def words(comment):
    """A comment of several lines as one line."""
    return " ".join(comment.split())


class Commands(CommandTest):
    def setUp(self):
        super().setUp()
        for path in ROOT.iterdir():
            if path.name != ".git":
                (self.folder / path.name).symlink_to(path)

    def prints(self, name, least):
        """Every command of the document prints what stands after it; ... stands for anything further."""
        cases = list(commands(name))
        self.assertGreaterEqual(len(cases), least)
        for command, printed in cases:
            # The library is for x86-64, and so is what is linked with it.
            if os.uname().machine != "x86_64" and re.search(r"\bcc\b|target/search", command):
                continue
            with self.subTest(command):
                status, out, err = self.run_command("bash", "-c", f"{{ {command}\n}} 2>&1")
                out = out.decode()
                if printed.endswith("...\n"):
                    printed = printed.removesuffix("...\n")
                    self.assertGreater(len(out), len(printed))
                    out = out[:len(printed)]
                self.assertEqual((out, err), (printed, ""))

    def test_readme(self):
        self.prints("README.md", 16)

    def test_readme_of_programs(self):
        self.prints("programs/README.md", 2)

    def test_readme_of_rust(self):
        self.prints("rust/README.md", 5)


class Code(unittest.TestCase):
    def test_listings(self):
        for name in ["scanner", "readback"]:
            uncommented = re.sub(r"\A(#.*\n)*", "", text(f"programs/{name}.litmus"))
            self.assertIn(uncommented, blocks("README.md"))

    def test_examples(self):
        self.assertEqual(blocks("README.md", "c"), [text("examples/search.c")])
        self.assertEqual(blocks("README.md", "rust"), [text("rust/blyskota/examples/search.rs")])

    def test_the_form_of_a_listing_is_one(self):
        form = [block for block in blocks("README.md") if block.startswith("locations x y ")]
        self.assertEqual(len(form), 1)
        read = listing.of_bytes(form[0].encode(), "the form")
        self.assertEqual(([len(thread) for thread in read.threads], len(read.conditions)), ([7], 2))
        self.assertIn(textwrap.indent(form[0], "    "), listing.__doc__)


class Refusals(unittest.TestCase):
    meanings = refusals.MEANINGS

    def test_readme(self):
        rows = re.findall(r"^\| (\d+) \| (?:program|step|search|outcomes)[a-z, ]* \| (.*) \|$", text("README.md"), re.MULTILINE)
        self.assertEqual({int(number): meaning for number, meaning in rows}, self.meanings)

    def test_header(self):
        found = re.findall(r"^#define BLYSKOTA_REFUSED_\w+ (\d+) +/\* (.*?) \*/$", text("include/blyskota.h"),
                           re.MULTILINE | re.DOTALL)
        self.assertEqual({int(number): words(meaning) for number, meaning in found}, self.meanings)

    def test_rust_wrapper(self):
        found = re.findall(r'^ +(\d+) => "(.*)",$', text("rust/blyskota/src/refusal.rs"), re.MULTILINE)
        self.assertEqual({int(number): meaning for number, meaning in found}, self.meanings)


class Stack(CommandTest):
    @unittest.skipUnless(os.uname().machine == "x86_64", "the frames are those of the code for x86-64")
    def test_the_header_says_what_the_frames_come_to(self):
        self.holds((OK, "", ""), ROOT / "tools" / "frames", "--check")

    def test_no_archive(self):
        self.holds((2, "", "frames: nowhere is not there: build it with ./library\n"), ROOT / "tools" / "frames", "nowhere")


class Paths(unittest.TestCase):
    # The history of changes names things as they were called then.
    documents = ["README.md", "programs/README.md", "rust/README.md", "docs/CONTRACTS.md", "docs/DECISIONS.md", "docs/MAP.md",
                 "docs/PERFORMANCE.md", "docs/TRUSTED.md"]
    patterns = {"crate/name", "crates/crate/must-fail/name.edit"}

    def is_there(self, path, folder):
        crate, _, edit = path.partition("/")
        places = [ROOT, ROOT / "crates", ROOT / "programs", folder, *(ROOT / "crates").iterdir(), *(ROOT / "rust").iterdir()]
        return (any((place / path).exists() for place in places)
                or (ROOT / "crates" / crate / "must-fail" / f"{edit}.edit").exists())

    def test_files_that_are_named_are_there(self):
        for name in self.documents:
            paths = set(re.findall(r"`([\w./+-]+/[\w./+-]*\w)`", text(name))) - self.patterns
            # What is built may not be there yet.
            sources = [path for path in paths if not path.startswith(("target/", "rust/target/")) and "/out/" not in path]
            self.assertTrue(sources)
            for path in sources:
                with self.subTest(f"{path} in {name}"):
                    self.assertTrue(self.is_there(path, (ROOT / name).parent))


if __name__ == "__main__":
    unittest.main()
