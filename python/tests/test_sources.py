"""tools/check_sources.py and tools/compare_layers.py find nothing in this tree; and the rules of the first find what is planted."""
import os
import subprocess
import sys
import unittest
from unittest import mock

from .running import ROOT

TOOLS = os.path.join(ROOT, "tools")
CHECK = os.path.join(TOOLS, "check_sources.py")


@unittest.skipUnless(os.path.exists(CHECK), "the package stands alone")
class Sources(unittest.TestCase):
    @classmethod
    def setUpClass(cls):
        with mock.patch.object(sys, "path", [TOOLS, *sys.path]):
            import check_sources
        cls.rules = check_sources
        cls.addClassCleanup(os.chdir, os.getcwd())
        os.chdir(ROOT)

    def test_nothing_is_found(self):
        ran = subprocess.run([sys.executable, "-B", CHECK], cwd=ROOT, capture_output=True, text=True, check=False)
        self.assertEqual((ran.stdout, ran.stderr, ran.returncode), ("", "", 0))

    def test_headers_and_packages_say_what_the_types_say(self):
        ran = subprocess.run([sys.executable, "-B", os.path.join(TOOLS, "compare_layers.py")], cwd=ROOT, capture_output=True, text=True,
                             check=False)
        self.assertRegex(ran.stdout, r"\A[1-9][0-9]* passed, 0 failed\n\Z", ran.stderr)

    def test_a_path_of_a_folder_that_is_gone_is_one(self):
        for folder in ("tools", "scripts", "attacks", "docs"):
            self.assertEqual(self.rules.PLACE.findall(f"run `{folder}/x.py` first"), [f"{folder}/x.py"])
        for front in ("de", "./", "a/"):
            self.assertEqual(self.rules.PLACE.findall(f"{front}scripts{os.sep}x"), [], front)

    @unittest.skipUnless(os.path.exists(os.path.join(ROOT, ".git")), "no clone: git tells the scripts")
    def test_tallies_are_looked_for_in_each_script(self):
        found = set(self.rules.scripts())
        self.assertTrue({"tools/test", "tools/mutants", "tools/tally.py", "packaging/pmhost", "trials/c/run.sh"} <= found, found)
        for told in ('print(f"{count.passed}', 'echo "$passed'):
            self.assertTrue(self.rules.TALLY.search(f"{told} passed, "), told)

    def test_a_law_has_a_comment_and_names_a_definition(self):
        def law(name, comment, clause):
            return "pm_a", self.rules.claims.Promise("", name, ("laws.rt", 1), comment, f"pub fn {name}()", [clause])

        laws = [law("one_is_true", "One is true.", "ensures { OneIsTrue }"), law("two_is_true", "", "ensures { OneIsTrue }"),
                law("three_is_true", "Three is true.", "ensures { 3 \u2261 3 }")]
        with mock.patch.object(self.rules, "laws_of", lambda crates: laws), \
                mock.patch.object(self.rules.claims, "definitions", lambda: {"OneIsTrue": "specs/Laws.antt:1"}):
            found = [line for *_, line in self.rules.unclaimed([])]
        self.assertEqual(found, ["the law two_is_true has no comment", "the law three_is_true names no definition"])

    def test_what_a_crate_promises_is_printed(self):
        ran = subprocess.run([sys.executable, "-B", os.path.join(TOOLS, "claims"), "pm_world", "causes_decide"], cwd=ROOT,
                             capture_output=True, text=True, check=False)
        lines = ran.stdout.splitlines()
        self.assertEqual((ran.stderr, ran.returncode, lines[1], lines[-3]), ("", 0, "    pub fn causes_decide()", "    ensures { CausesDecide }"))
        self.assertRegex(lines[0], r"\Acauses_decide \(.*/src/laws\.rt:[0-9]+\)\Z")
        self.assertRegex(lines[2], r"\A    Only its cause decides whether an event is taken\.")
        self.assertRegex(lines[-2], r"\A    CausesDecide: .*/specs/Laws\.antt:[0-9]+\Z")

    def prose(self, text):
        """What the rules on pages find in a page of this text."""
        prose = self.rules.prose
        with mock.patch.object(prose, "pages", lambda: ["docs/words.md"]), mock.patch.object(prose, "HEADERS", ()), \
                mock.patch.object(prose, "source_texts", lambda: ()), mock.patch.object(prose, "text_of", lambda name, real=prose.text_of: real(name) if name == prose.STYLE else text):
            return [f"{kind}: {line}" for _, _, kind, line in prose.findings()]

    def test_a_name_of_the_page_of_proofs_that_no_crate_has_is_found(self):
        claims = self.rules.claims
        pages = {"docs/proved.md": "# A\n`own`, `one_is_none`\n| what is proved | unless | law |\n|---|---|---|\n| it | nothing | `World::run` |\n| that | nothing | |\n",
                 "README.md": "# A\n`no_law`\n\n## What is proved\n\nOne (`World::run`). Two (`two_is_none`). Three.\n\nFour.\n\n## Taking part\n`other_law`\n"}
        with mock.patch.object(claims, "read", lambda path, real=claims.read: pages.get(path) or real(path)):
            self.assertEqual([line for *_, line in claims.lost_names()], [
                "no crate has one_is_none", "names no law: | that | nothing | |", "no crate has two_is_none", "names no law: Three."])

    def test_words_of_the_list_and_long_sentences_are_found(self):
        self.assertEqual(self.prose("A wait comes after a write. `where` is code.\n\n```text\nit tells\n```\n"), [])
        self.assertEqual(self.prose("A wait comes behind a write.\n"), ["words: behind: .. A wait comes behind a write. .."])
        self.assertEqual(self.prose("| a | b |\n|---|---|\n| it | the host tells a word |\n"), ["words: tells: .. the host tells a word .."])
        long = " ".join(["word"] * 36)
        self.assertEqual(self.prose(f"| a |\n|---|\n| {long} |\n"), [f"sentence: 36 words: {long}"])
        self.assertEqual(self.prose(" ".join(["Word"] * 21) + ".\n"), ["sentence: 21.0 words a sentence"])

    def test_words_of_help_messages_and_doc_comments_are_found(self):
        prose, long = self.rules.prose, " ".join(["word"] * 36)
        sources = {"python/src/pmhost/clock.py": f'"""It waits behind `where`."""\nsaid = f"give {{it}} where it is", "{long}"\n',
                   "rust/src/lib.rs": "/// It tells a word.\n/// ```\n/// tells()\n/// ```\n// told\nfn f() {}\n", "rust/build.rs": "/// It tells.\n"}
        with mock.patch.object(prose, "kept_files", lambda: [*sources]), mock.patch.object(prose, "pages", lambda: []), \
                mock.patch.object(prose, "HEADERS", ()), mock.patch.object(prose, "text_of", lambda name, real=prose.text_of: sources.get(name) or real(name)):
            found = [(name, line, kind, said) for name, line, kind, said in prose.findings()]
        self.assertEqual(sorted(found), [
            ("python/src/pmhost/clock.py", 1, "words", "behind: .. It waits behind `x`. .."),
            ("python/src/pmhost/clock.py", 2, "sentence", f"36 words: {long}"),
            ("python/src/pmhost/clock.py", 2, "words", "where: .. give x where it is .."),
            ("rust/src/lib.rs", 1, "words", "tells: .. It tells a word. ..")])


if __name__ == "__main__":
    unittest.main()
