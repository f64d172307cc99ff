"""Questions, rules and lists that mean harm, or that a program has made: each is answered or refused in a few lines, and costs little."""

import os
import random

import pytest
from studio import put
from test_attacks import RAW, run_each
from test_list import picture

from exifnorm_pictures.catalogue import store
from exifnorm_pictures.comparison import verified
from exifnorm_pictures.cli import names
from exifnorm_pictures.fields import questions, tokens
from exifnorm_pictures.files import folders
from exifnorm_pictures.scan import walk

TEXT = "a" * 60_000  # which is kept whole


@pytest.fixture
def archive(folder, called):
    put(folder / "p", {"a.jpg": picture([("title", "A")]), "b.jpg": picture([("caption", TEXT[:30_000])])})
    assert called("index", "p", "--catalogue", "c", "--quiet")[0] == 0
    return folder


def refused(result):
    """A refusal: no result, and few lines that control nothing."""
    status, printed, messages = result
    assert (status, printed) == (3, ""), result
    assert len(messages) < 20_000 and len(messages.splitlines()) < 70, messages[:1000]
    assert not RAW.search(messages) and "internal error" not in messages, messages[:1000]


def drawn(rng, depth):
    """A question with parts inside each other, some of which have no meaning."""
    if not depth:
        return rng.choice(("title = A", "without credit", "caption like 'a*'", "keywords has x", "with title", "date created < 1950"))
    inside = drawn(rng, depth - 1)
    word = rng.choice(("and", "or"))
    return rng.choice((f"not ({inside})", f"({inside}) {word} title = A", f"title = B {word} ({inside})", f"({inside})"))


@pytest.mark.parametrize("seed", range(20))
def test_brackets_inside_each_other(archive, called, seed):
    """As many as a question may have are answered by SQLite too, which has limits of its own; more are refused."""
    rng = random.Random(seed)
    for depth in (1, 5, questions.DEEPEST // 2 - 1):
        assert called("list", "c", "--where", drawn(rng, depth))[0] in (0, 2)
    refused(called("list", "c", "--where", drawn(rng, questions.DEEPEST + 1)))


def alternating(depth):
    """The deepest question that is read: and and or by turns, so that no bracket can be left out."""
    question = "title=A"
    for number in range(depth):
        question = f"title=A {('and', 'or')[number % 2]} ({question})"
    return question


@pytest.mark.parametrize("depth", [1, questions.DEEPEST // 2, questions.DEEPEST - 1])
def test_the_deepest_question(archive, called, depth):
    assert called("list", "c", "--where", alternating(depth))[:2] == (0, called("list", "c", "--where", "title=A")[1])


@pytest.mark.parametrize("word", ("and", "or"))
@pytest.mark.parametrize("condition", ("title=A", "not serial=A", "date created<1950"))
def test_as_many_conditions_as_may_be(archive, called, word, condition):
    """SQLite has a limit for the depth of an expression, and one for its values."""
    at_once = (questions.LONGEST - 10) // len(f" {word} {condition}")
    asked = f" {word} ".join([condition] * min(at_once, questions.MOST))
    assert called("list", "c", "--where", asked)[0] in (0, 2)
    several = ["--where", f" {word} ".join([condition] * 50)] * (questions.MOST // 50)
    assert called("list", "c", *several)[0] in (0, 2)
    refused(called("list", "c", *several, "--with", "title"))


@pytest.mark.parametrize("option", ("--with", "--without"))
def test_as_many_options_as_may_be(archive, called, option):
    assert called("list", "c", *[option, "title"] * questions.MOST)[0] in (0, 2)
    refused(called("list", "c", *[option, "title"] * (questions.MOST + 1)))


STRANGE = (
    "",
    " ",
    "(" * 4000,
    ")" * 100,
    "not " * 900 + "title=A",
    "title = " + "x" * 5000,
    "title like '" + "a*" * 600 + "'",
    "title = 'a\0b'",
    "title\0=A",
    "title = \x1b[2J",
    "\udcff = \udcff",
    "title = A; DROP TABLE pictures",
    "title = A -- x",
    "'title' = 'A' or 1=1",
    "title < " + "9" * 400,
    "keywords > -" + "9" * 3000,
    "date created = ٢٠٢٤",
    "=" * 300,
    "title ! A",
    '"' * 301,
    "\n\r\u2028title\u2028=\u2028A",
)


@pytest.mark.parametrize("text", STRANGE, ids=range(len(STRANGE)))
def test_a_strange_question(archive, called, text):
    result = called("list", "c", "--where", text)
    if result[0] == 3:
        refused(result)
    assert result[0] in (0, 2, 3) and "internal error" not in result[2], result


PATTERNS = ("*a" * 450 + "*b", "a*" * 450 + "b", "*" * 900, "*" + "a" * 900 + "b", "?*" * 450 + "b", "*[" * 300, "[" * 900)


def test_patterns(archive):
    """None takes long for a text, however often its stars can be tried."""
    (archive / "rules").write_text("".join(f'caption like "{it}"\n' for it in PATTERNS))
    commands = [["list", "c", "--where", f'caption like "{it}"'] for it in PATTERNS]
    for ended in run_each(archive, [*commands, ["check", "--rules", "rules", "c"]]):
        ended.check(0, 1)


HARM = {
    "a long line": b"title is " + b"a" * 1_000_000,
    "many words": b"title " * 100_000,
    "many quotes": b"title is " + b"'a" * 40_000,
    "a long text": b'title is "' + b"'a" * 40_000 + b'"',
    "many lines": b"nonsense\n" * 1_000_000,
    "many rules": b"title is A\n" * 200_000,
    "NUL": b"title is A\0\n\0",
    "controls": b"title i \x1b[2J\x9b\xe2\x80\xae\n",
    "blanks": b" " * 9_000_000 + b"\n",
    "many folders": b"title never in " + b"a/, " * 24_000 + b"\nx",
    "a long pattern": b"title like '" + b"a*" * 600 + b"'",
    "words of many": b"title from words\n" * 100,
    "a folder of words": b"title from p\n",
    "a device of words": b"title from /dev/zero\n",
    "a pipe of words": b"title from pipe\n",
    "a line of itself": b"title from rules\nnonsense",
    "a number": b"title at most 99999999999999999999 characters",
    "a date": b"date created not after 9999-99-99999",
}


CHECKED = ("a long text",)  # which is a rule


@pytest.mark.parametrize("name", HARM)
def test_rules_that_mean_harm(archive, name):
    """They are refused in a few lines, and reading them takes no more memory than a picture."""
    os.mkfifo(archive / "pipe")
    (archive / "words").write_bytes(b"\n".join(b"%d" % it for it in range(20_000)))
    (archive / "rules").write_bytes(HARM[name])
    (ended,) = run_each(archive, [["check", "--rules", "rules", "c"]])
    ended.check(*((0, 1) if name in CHECKED else (3,)))
    if name not in CHECKED:
        refused((ended.status, ended.out, ended.err))


def test_words_of_a_long_file(archive, called):
    (archive / "words").write_bytes(b"a\n" * (tokens.MOST_WORDS + 1))
    (archive / "rules").write_text("title from words\n")
    refused(called("check", "--rules", "rules", "c"))


def test_a_line_that_is_long_is_shown_around_its_mistake(archive, called):
    (archive / "rules").write_text("title one of " + ", ".join(f"'{it}'" for it in range(3000)) + " nonsense, 'x'\n")
    _, _, messages = called("check", "--rules", "rules", "c")
    assert "nonsense" in messages and len(messages) < 1000
    shown, mark = messages.splitlines()[-2:]
    assert shown[mark.index("^") :].startswith("nonsense")


# Of each kind of file that is a list: what makes it, its name, how it begins, its limit, what reads it, and the status if it is longer
LISTS = {
    "names": ("", "names", b"p/a.jpg", (walk, "LONGEST_LIST"), "same c --files-from names", 3),
    "many names": ("", "names", b"\n", (walk, "MOST_NAMES"), "same c --files-from names", 3),
    "rules": ("", "rules", b"title is A", (names, "_LONGEST"), "check c --rules rules", 3),
    "words": ("", "words", b"A", (names, "_LONGEST"), "check c --rules of-words", 3),
    "fields": ("", "names", b"Make", (names, "_LONGEST"), "compare p/a.jpg p/b.jpg --only @names", 3),
    "a manifest's line": ("", "bag/manifest-sha256.txt", b"0" * 64 + b"  data/", (verified, "_LONGEST_LINE"), "verify --bag bag", 3),
    "pages": ("report c --html r/", "r/exifnorm-report", None, (folders, "_LONGEST"), "report c --html r/", 4),
    **{
        f"catalogues: {words}": ("index p --shards d --quiet", "d/catalogues", None, (store, "_LONGEST_LIST"), words, 4)
        for words in ("list d", "index p --shards d", "catalogue forget d q", "catalogue merge d --catalogue new", "same d")
    },
}


@pytest.mark.parametrize("kind", LISTS)
def test_a_list_at_its_limit_and_one_byte_over_it(archive, called, monkeypatch, kind):
    """One that is too long is refused, and never cut."""
    made, name, head, limit, words, due = LISTS[kind]
    put(archive, {"bag/data/a.jpg": b"a", "of-words": b"title from words\n"})
    assert not made or called(*made.split())[0] == 0
    head = head or (archive / name).read_bytes()
    monkeypatch.setattr(*limit, 5000)
    for length, statuses in ((5000, (0, 1, 2)), (5001, (due,))):
        (archive / name).write_bytes(head.ljust(length, b"x" if "manifest" in kind else b"\n"))
        status, _, messages = called(*words.split())
        assert status in statuses and (status < 3 or os.path.basename(name) in messages and len(messages) < 1000), (status, messages)
