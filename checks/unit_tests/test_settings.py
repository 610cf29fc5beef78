"""What tools/sshmux_tools/ssh_settings.py reads from a listing of ssh, and how it expands values."""

from __future__ import annotations

import hashlib
import os
import pwd
import socket
import unittest
from unittest import mock

from sshmux_tools.ssh_settings import NoSettings, Settings, expand

LISTING = """\
host box
hostname box.example
user ann
port 2222
identityfile ~/.ssh/one
identityfile /keys/%h two
compression yes
forwardagent no
connectionattempts many
proxyjump inner
loglevel
"""


class SettingsTest(unittest.TestCase):
    def setUp(self) -> None:
        self.settings = Settings(LISTING)
        self.user = pwd.getpwuid(os.getuid())

    def test_values_stand_in_their_order(self) -> None:
        self.assertEqual(self.settings.all("identityfile"), ["~/.ssh/one", "/keys/%h two"])
        self.assertEqual(self.settings.get("identityfile"), "~/.ssh/one")
        self.assertEqual(self.settings.all("none"), [])
        self.assertEqual((self.settings.get("none"), self.settings.get("none", "x")), ("", "x"))
        self.assertEqual(self.settings.all("loglevel"), [""])

    def test_flags_and_numbers(self) -> None:
        flags = [self.settings.is_on(it) for it in ("compression", "forwardagent", "none")]
        self.assertEqual(flags, [True, False, False])
        self.assertEqual(self.settings.number("port", 22), 2222)
        self.assertEqual(self.settings.number("connectionattempts", 1), 1)
        self.assertEqual((Settings("").port, Settings("").host), (22, ""))
        found = (self.settings.host, self.settings.port, self.settings.user)
        self.assertEqual(found, ("box.example", 2222, "ann"))

    def test_each_token(self) -> None:
        here = socket.gethostname()
        digest = hashlib.sha1(f"{here}box.example2222ann".encode()).hexdigest()
        for token, value in {
            "%%": "%", "%C": digest, "%d": self.user.pw_dir, "%h": "box.example",
            "%i": str(os.getuid()), "%j": "inner", "%k": "box", "%L": here.split(".")[0],
            "%l": here, "%n": "box", "%p": "2222", "%r": "ann", "%u": self.user.pw_name,
        }.items():  # fmt: skip
            with self.subTest(token):
                self.assertEqual(expand(f"a{token}z", self.settings), f"a{value}z")

    def test_tokens_side_by_side(self) -> None:
        self.assertEqual(expand("%%h%h%p%%%%", self.settings), "%hbox.example2222%%")

    def test_a_value_is_not_expanded_again(self) -> None:
        settings = Settings("host %p\nhostname %%\nuser ${HOME}\nport 1")
        self.assertEqual(expand("%n %h %r", settings), "%p %% ${HOME}")
        with mock.patch.dict(os.environ, {"IT": "%h %x ${IT}"}):
            self.assertEqual(expand("${IT}%p", settings), "%h %x ${IT}1")

    def test_the_alias_is_the_key_s_name(self) -> None:
        self.assertEqual(expand("%k", Settings("host box\nhostkeyalias db")), "db")

    def test_what_is_no_token(self) -> None:
        for value, token in (("%x", "%x"), ("a%", "%"), ("%T", "%T"), ("%%%", "%"), ("% h", "% ")):
            with self.subTest(value):
                with self.assertRaises(NoSettings) as raised:
                    expand(value, self.settings)
                self.assertEqual(str(raised.exception), f"{value}: {token} is no token here")

    def test_variables(self) -> None:
        with mock.patch.dict(os.environ, {"ONE": "1", "NOTHING": ""}):
            self.assertEqual(expand("${ONE}${NOTHING}2", self.settings), "12")
            self.assertEqual(expand("$ONE ${ONE ${}", self.settings), "$ONE ${ONE ${}")
        os.environ.pop("NOT_THERE", None)
        with self.assertRaisesRegex(NoSettings, "NOT_THERE isn't set"):
            expand("${NOT_THERE}", self.settings)

    def test_a_command_has_no_variables(self) -> None:
        os.environ.pop("NOT_THERE", None)
        command = "nc -x ${NOT_THERE} %h ~/x"
        found = expand(command, self.settings, has_variables=False)
        self.assertEqual(found, "nc -x ${NOT_THERE} box.example ~/x")

    def test_a_leading_tilde_is_the_home_of_the_user_database(self) -> None:
        home = self.user.pw_dir
        with mock.patch.dict(os.environ, {"HOME": "/elsewhere"}):
            for value, wanted in (
                ("~", home), ("~/.ssh/%p", f"{home}/.ssh/2222"), ("~ann/x", "~ann/x"),
                ("/~/x", "/~/x"), ("a~", "a~"),
            ):  # fmt: skip
                with self.subTest(value):
                    self.assertEqual(expand(value, self.settings), wanted)


if __name__ == "__main__":
    unittest.main()
