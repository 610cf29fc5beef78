"""Which keys tools/sshmux_tools/known_hosts.py takes for a host."""

from __future__ import annotations

import base64
import hashlib
import hmac
import os
import tempfile
import unittest

from sshmux_tools.known_hosts import KnownHosts, NotKnown, is_hash_of, matches_pattern, read_line

KIND, OTHER_KIND = "ssh-ed25519", "ssh-rsa"
KEY, OTHER_KEY = b"the key", b"another"


def spelled(key: bytes) -> str:
    return base64.b64encode(key).decode()


def line(names: str, key: bytes = KEY, kind: str = KIND, marker: str = "") -> str:
    return f"{marker} {names} {kind} {spelled(key)} a comment\n".lstrip()


def hashed(name: str) -> str:
    salt = b"0123456789abcdefghij"
    digest = hmac.digest(salt, name.encode(), hashlib.sha1)
    return f"|1|{spelled(salt)}|{spelled(digest)}"


class KnownHostsTest(unittest.TestCase):
    def setUp(self) -> None:
        self.folder = tempfile.TemporaryDirectory()
        self.addCleanup(self.folder.cleanup)
        self.path = f"{self.folder.name}/known"

    def known(
        self, text: str, host: str = "box", port: int = 22, alias: str | None = None
    ) -> KnownHosts:
        with open(self.path, "w", encoding="utf-8") as file:
            file.write(text)
        return KnownHosts([f"{self.folder.name}/none", self.path], host, port, alias)

    def why(self, known: KnownHosts, kind: str = KIND, key: bytes = KEY) -> str:
        """Why a key isn't taken; nothing where it is."""
        try:
            known.check(kind, key)
            return ""
        except NotKnown as why:
            return str(why)

    def test_names_that_are_the_host(self) -> None:
        for names in (
            "box", "web,box", "b?x", "*", "*x", "B*,web", hashed("box"), "!web,box", "BOX",
        ):  # fmt: skip
            with self.subTest(names):
                self.assertEqual(self.why(self.known(line(names))), "")

    def test_names_that_are_not(self) -> None:
        for names in (
            "boxes", "bo", "web", "!box,*", "*,!box", "!b*,box", "[box]:22", "box.", "b.x", "",
            hashed("web"), "|1|x|y", f"|2{hashed('box')[2:]}", "|1|", hashed("box") + "|", "!web",
        ):  # fmt: skip
            with self.subTest(names):
                self.assertIn("isn't known as box", self.why(self.known(line(names))))

    def test_a_host_is_looked_up_in_small_letters(self) -> None:
        self.assertEqual(self.why(self.known(line("box"), host="Box")), "")
        self.assertEqual(self.why(self.known(line(hashed("box")), host="BOX")), "")

    def test_a_port_stands_in_the_name(self) -> None:
        for names, is_taken in (
            ("[box]:2222", True), ("[box]:*", True), (hashed("[box]:2222"), True), ("box", True),
            ("[box]:2223", False), ("[web]:2222", False), ("[box]", False),
        ):  # fmt: skip
            with self.subTest(names):
                why = self.why(self.known(line(names), port=2222))
                self.assertEqual(why == "", is_taken, why)

    def test_a_line_without_a_port_speaks_against_no_key(self) -> None:
        known = self.known(line("box", OTHER_KEY), port=2222)
        self.assertIn("isn't known as [box]:2222", self.why(known))
        known = self.known(line("[box]:2222", OTHER_KEY) + line("box"), port=2222)
        self.assertEqual(self.why(known), "")

    def test_an_alias_stands_without_a_port(self) -> None:
        text = line("db") + line("[db]:2222", OTHER_KEY) + line("box", OTHER_KEY)
        known = self.known(text, port=2222, alias="DB")
        self.assertEqual((known.name, self.why(known)), ("db", ""))
        self.assertIn("line 1", self.why(known, key=OTHER_KEY))

    def test_a_key_that_changed(self) -> None:
        known = self.known("# a comment\n\n" + line("box", OTHER_KEY))
        wanted = f"its {KIND} key isn't the one that is known: {self.path} line 3"
        self.assertEqual(self.why(known), wanted)
        self.assertIn("isn't known as box", self.why(known, kind=OTHER_KIND))

    def test_one_of_two_keys_is_enough(self) -> None:
        known = self.known(line("box", OTHER_KEY) + line("box"))
        self.assertEqual((self.why(known), self.why(known, key=OTHER_KEY)), ("", ""))

    def test_a_revoked_key_is_refused_whatever_else_stands_there(self) -> None:
        revoked = line("*", KEY, marker="@revoked")
        for text in (line("box") + revoked, revoked + line("box")):
            known = self.known(text)
            self.assertIn("is revoked", self.why(known))
            self.assertEqual(known.kinds(), [KIND])
        elsewhere = self.known(line("box") + line("web", KEY, marker="@revoked"))
        self.assertEqual(self.why(elsewhere), "")

    def test_an_authority_is_passed_over(self) -> None:
        known = self.known(line("box", KEY, marker="@cert-authority"))
        self.assertEqual(known.kinds(), [])
        self.assertIn("isn't known", self.why(known))

    def test_lines_that_have_no_key(self) -> None:
        for text in (
            "", "#box ssh-ed25519 AAAA", "box", "box ssh-ed25519", "@revoked box ssh-ed25519",
            "box ssh-ed25519 not-base64", "@revoked", "   ",
        ):  # fmt: skip
            with self.subTest(text):
                self.assertIsNone(read_line(text, "here"))

    def test_a_line_is_read_whole(self) -> None:
        found = read_line(f"@revoked\tbox,web  {KIND} {spelled(KEY)} ann@home", "here")
        assert found is not None
        fields = (found.place, found.marker, found.names, found.kind, found.key)
        self.assertEqual(fields, ("here", "@revoked", "box,web", KIND, KEY))

    def test_the_types_that_the_server_is_asked_for(self) -> None:
        known = self.known(line("box", KEY, OTHER_KIND) + line("web") + line("b*", OTHER_KEY))
        self.assertEqual(known.kinds(), [OTHER_KIND, KIND])

    def test_a_file_that_cannot_be_read(self) -> None:
        os.mkdir(self.path)
        with self.assertRaisesRegex(NotKnown, "known: Is a directory"):
            KnownHosts([self.path], "box", 22, None)

    def test_bytes_that_are_no_text(self) -> None:
        with open(self.path, "wb") as file:
            file.write(b"\xff\xfe box\n" + line("box").encode())
        self.assertEqual(self.why(KnownHosts([self.path], "box", 22, None)), "")

    def test_patterns_mean_no_expression(self) -> None:
        for pattern, name, is_meant in (
            ("a.c", "abc", False), ("a.c", "a.c", True), ("[box]:*", "[box]:1", True),
            ("[box]:*", "b:1", False), ("a?", "a", False), ("*", "", True), ("(a|b)", "a", False),
        ):  # fmt: skip
            with self.subTest(pattern):
                self.assertEqual(matches_pattern(pattern, name), is_meant)

    def test_a_hash_is_of_one_name(self) -> None:
        self.assertTrue(is_hash_of(hashed("box"), "box"))
        self.assertFalse(is_hash_of(hashed("box"), "Box"))


if __name__ == "__main__":
    unittest.main()
