"""The block of ~/.ssh/config by which a plain ssh goes through a share, and never by itself.

Whoever says another user, port or host name finds no socket by %r@%h:%p. Then, as where nobody
serves the path or the session is refused, the ProxyCommand says one line and ends ssh with 255. The
tool's own login, and who goes by himself, has SSHMUX_DIRECT=HOST in the environment: for him the
block isn't there. The second part starts the share where none answers.
"""

import re
import shlex

from sshmux_tools.share_options import Options
from sshmux_tools.ssh_words import BYPASS

# A host in the block stands in a list of patterns, and in commands of a shell.
PLAIN_HOST = re.compile(r"[A-Za-z0-9_.:-]+")

BLOCK = """\
Match originalhost {host} !exec "env | grep -qxF {bypass}={host}"
  ControlPath {path}
  ControlMaster no
  ProxyCommand sh -c 'echo "{line}" >&2; false'
Match originalhost {host} exec "{ensure}"
Match all"""

LINE = "ssh-mux: {host}: no shared session takes this; {bypass}={host} ssh .. goes by itself"


class Unwritable(Exception):
    """A value can't stand in ssh's configuration."""


def escaped(text: str) -> str:
    """A text that stands between double quotes, where nothing but % is special."""
    if '"' in text or "\n" in text or "${" in text:
        raise Unwritable(f"{text}: can't stand in ssh's configuration")
    return text.replace("%", "%%")


def block_for(options: Options, folder: str, ensure: str) -> str:
    """The block; `ensure` is the command ssh-mux-ensure."""
    host = options.name
    if not PLAIN_HOST.fullmatch(host):
        raise Unwritable(f"{host}: can't stand in a Match of ssh's configuration")
    path = f"{escaped(folder)}/%r@%h:%p"
    line = LINE.format(host=host, bypass=BYPASS)
    command = shlex.join([ensure, *options.again()])
    return BLOCK.format(
        host=host, bypass=BYPASS, path=f'"{path}"' if re.search(r"\s", path) else path,
        line=line, ensure=escaped(command),
    )  # fmt: skip
