"""Makes a call: `python3 -m nvimd.call ADDRESS METHOD ARGS..`, each argument and the result in
JSON.

    python3 -m nvimd.call /tmp/nvimd.sock nvim_buf_get_lines 0 0 -1 true
    python3 -m nvimd.call /tmp/nvimd.sock nvim_command '"qall!"'

The status is 0, or 1 with one line that says why the call is refused or there is no answer.
"""

import base64
import json

from .command import Words, run
from .errors import Error
from .session import connect


def value_in(word):
    """The value of an argument."""
    try:
        return json.loads(word)
    except ValueError:
        raise Error(f"{word} is no JSON; a string is written in quotes: '\"{word}\"'") from None


def other(value):
    """A value that JSON has not: a binary, or an ext value."""
    return base64.b64encode(value).decode() if isinstance(value, bytes) else list(value)


def main():
    words = Words(__doc__, prog="python3 -m nvimd.call")
    words.add_argument("address", metavar="ADDRESS", help="a socket's path, or host:port")
    words.add_argument("method", metavar="METHOD")
    words.add_argument("args", metavar="ARG", nargs="*", help="an argument, in JSON")
    asked = words.parse_args()
    params = [value_in(word) for word in asked.args]
    with connect(asked.address) as session:
        result = session.call(asked.method, *params)
    text = json.dumps(result, ensure_ascii=False, default=other)
    print(text.encode(errors="backslashreplace").decode())  # which is how JSON escapes a surrogate
    return 0


if __name__ == "__main__":
    run(main, name="call")
