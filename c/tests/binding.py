"""Tests of the package escape_simd, which c/tests/python installs. Prints `passed NAME`, `failed NAME` or `skipped
NAME` for each test, and at the end `N passed, M failed, K skipped`."""

import array
import ast
import doctest
import enum
import html
import inspect
import json
import os
import pickle
import random
import re
import shutil
import subprocess
import sys
import threading
import time
from importlib.metadata import distribution

import escape_simd as library

C = os.path.dirname(os.path.dirname(os.path.abspath(__file__)))
RANDOM_TEXTS = 20_000
MARKED = "\"\\&'/<>\b\t\n\f\r\x7f\u2028\u2029"
SCALARS = [chr(n) for n in range(0x110000) if not 0xD800 <= n < 0xE000]

# Where the package escapes in pieces of another way: see _escape.c.
PIECE, RELEASE = 4096, 65536


class Skipped(Exception):
    pass


def as_json(text):
    """What the standard library gives. There is no known difference."""
    return json.dumps(text, ensure_ascii=False)


SIX = {'"': "&quot;", "&": "&amp;", "'": "&#x27;", "/": "&#x2f;", "<": "&lt;", ">": "&gt;"}


def as_html(text):
    """Six characters become entities."""
    return "".join(SIX.get(c, c) for c in text)


def as_script(text):
    """The standard library has no such literal: five characters of its JSON are escaped besides."""
    output = as_json(text)
    for raw in "<>&\u2028\u2029":
        output = output.replace(raw, "\\u%04x" % ord(raw))
    return output


PAIRS = [(library.json, as_json), (library.html, as_html), (library.script, as_script)]


def check(text):
    """All three outputs of the text, as a str and as bytes. A str that is not stored as Python stores it equals no other."""
    for ours, theirs in PAIRS:
        expected = theirs(text)
        for output, wanted in (ours(text), expected), (ours(text.encode()), expected.encode()):
            assert output == wanted and type(output) is type(wanted), (ours.__name__, len(text), text[:100])


def raised_by(call, *arguments, **named):
    try:
        output = call(*arguments, **named)
    except Exception as error:
        return error
    raise AssertionError((call.__name__, arguments, output))


def character(source):
    low, high = source.choice([(0, 0x20), (0x20, 0x7F), (0x80, 0x800), (0x800, 0xD800), (0x2020, 0x2030), (0xE000, 0x10000), (0x10000, 0x110000)])
    return chr(source.randrange(low, high))


def random_text(source):
    rate = source.choice([0, 0.02, 0.2, 1])
    letters = source.choices("abcdefghijklmnopqrstuvwxyz     ", k=source.randrange(source.choice([8, 40, 300, 1000])))
    for at in range(len(letters)):
        if source.random() < rate:
            letters[at] = source.choice(MARKED) if source.random() < 0.5 else character(source)
    return "".join(letters)


def each_text(seed, count):
    source = random.Random(seed)
    for _ in range(count):
        yield random_text(source)


# --- outputs ---


def test_scalars_alone():
    """each scalar value alone, against json.dumps and a model of the six entities"""
    for c in SCALARS:
        for ours, theirs in PAIRS:
            assert ours(c) == theirs(c), (ours.__name__, ascii(c))


def test_scalars_together():
    """all scalar values in one text, and those that Python stores in one, two and four bytes"""
    for low, high in [(0, 0x110000), (0, 0x80), (0, 0x100), (0x80, 0x100), (0, 0x10000), (0x100, 0x10000), (0x10000, 0x110000)]:
        text = "".join(c for c in SCALARS if low <= ord(c) < high)
        check(text)
        check(text * (2 * PIECE // len(text) + 1))


def test_separators():
    """texts whose widest characters script mode escapes, short and long"""
    for rest in "a", "\xe9", "\u0100", "\U00010000":
        for separators in "\u2028", "\u2029", "\u2028\u2029":
            for count in 1, PIECE, RELEASE:
                check((rest + separators) * count)
                check((separators + rest) * count)
    check("\u2028" * PIECE)


def test_random_texts():
    """20,000 random texts, as str and bytes"""
    for text in each_text(7, RANDOM_TEXTS):
        check(text)


def test_borders():
    """texts that end, and characters that stand, around the end of a piece and the length from which the GIL is released"""
    for length in [n + d for n in (PIECE, 2 * PIECE, RELEASE, 4 * RELEASE) for d in range(-5, 6)]:
        for c in "a", "<", '"', "\x01", "\xe9", "\u2028", "\u20ac", "\U0001f600":
            check("a" * (length - 1) + c)
            check("a" * (length - 4) + c * 9)
        check("<" * length)


def test_long_texts():
    """texts of a MiB, with few and with many escapes, in each width"""
    for seed, wide in enumerate(["", "\xe9", "\u044f", "\U0001f600"]):
        part = "".join(each_text(seed, 60)).encode("ascii", "ignore").decode() + wide
        check((part * (2**20 // len(part) + 1))[: 2**20])
        check((wide or "a") * 2**19 + part)


def test_reads_back():
    """json.loads and html.unescape read the text back"""
    for text in each_text(9, 2000):
        assert json.loads(library.json(text)) == text
        assert json.loads(library.script(text)) == text
        assert html.unescape(library.html(text)) == text


def test_bytes():
    """a bytearray and a memoryview, also one with gaps, return bytes"""
    for text in each_text(8, 500):
        for ours, theirs in PAIRS:
            source = text.encode()
            spread = bytearray(2 * len(source))
            spread[::2] = source
            for given in bytearray(source), memoryview(source), memoryview(spread)[::2]:
                output = ours(given)
                assert output == theirs(text).encode() and type(output) is bytes, (ours.__name__, text)


# --- errors ---


def test_not_text():
    """what is no text is a TypeError that names what is wanted"""
    for ours, _ in PAIRS:
        for wrong in 5, None, ["a"], object(), str, array.array("i", [60]):
            error = raised_by(ours, wrong)
            assert type(error) is TypeError and "takes a str or bytes, not %s" % type(wrong).__name__ in str(error), error


def test_wrong_arguments():
    """wrong arguments are a TypeError that names the call"""
    for ours, _ in PAIRS:
        given = [((), {}), (("a", "b"), {}), (("a",), {"other": True}), ((), {"text": "a"})]
        given += [(("a",), {"markup": True})] if ours is library.json else [(("<", True), {}), (("a",), {"markup": True, "other": 1})]
        for arguments, named in given:
            error = raised_by(ours, *arguments, **named)
            assert type(error) is TypeError, (ours.__name__, error)
            assert re.match(r"(escape_simd\._escape\.)?%s\(\) " % ours.__name__, str(error)), (ours.__name__, error)


def test_surrogates():
    """a lone surrogate is a UnicodeEncodeError with its place, as str.encode raises it"""
    for before in "", "a", "\xe9", "\u20ac" * PIECE, "a" * RELEASE + "\U0001f600":
        for wrong in "\ud800", "\udfff", "\ud83d\ude00", "\ude00\ud83d":
            text = before + wrong + "end"
            wanted = raised_by(text.encode)
            for ours, _ in PAIRS:
                error = raised_by(ours, text)
                assert type(error) is UnicodeEncodeError and error.args == wanted.args, ours.__name__


def test_broken_bytes():
    """bytes that are not UTF-8 are a UnicodeDecodeError with the place, as bytes.decode raises it"""
    for before in b"", b"a", "\xe9".encode(), b"<" * (PIECE - 1), "\u20ac".encode() * PIECE, b"a" * RELEASE:
        for wrong in b"\xff", b"\x80", b"\xc0\x80", b"\xe2\x80", b"\xe2\x82z", b"\xed\xa0\x80", b"\xf4\x90\x80\x80", b"\xf0\x9f\x98":
            for after in b"", b"a", "\xe9".encode():
                text = before + wrong + after
                wanted = raised_by(text.decode)
                for ours, _ in PAIRS:
                    for call in [ours] + ([lambda text: ours(text, markup=True)] if ours is not library.json else []):
                        error = raised_by(call, text)
                        assert type(error) is UnicodeDecodeError and error.args == wanted.args, (ours.__name__, len(before), wrong)


# --- subclasses, and HTML that is marked ---


class Steering(str):
    """A str that says other things of itself than str does."""

    def encode(self, *_):
        return b"\xff\xff\xff\xff"

    def __len__(self):
        return 1 << 20

    def __str__(self):
        return "<other>"

    def __getattribute__(self, name):
        raise AttributeError(name)


class SteeringBytes(bytes):
    def __len__(self):
        return 1 << 20

    def __bytes__(self):
        return b"<other>"


class Impostor:
    __class__ = str


def test_subclasses():
    """a subclass of str or bytes steers nothing, and the output is no subclass"""
    for ours, theirs in PAIRS:
        for text in "a<\xe9", "a", "a" * RELEASE + "\xe9":
            for output, wanted in (ours(Steering(text)), theirs(text)), (ours(SteeringBytes(text.encode())), theirs(text).encode()):
                assert output == wanted and type(output) is type(wanted), ours.__name__
        assert type(raised_by(ours, Impostor())) is TypeError, ours.__name__


class Bold(str):
    def __html__(self):
        return "<b>%s</b>" % self


class Page:
    def __html__(self):
        return "<p>"


class Icon(str, enum.Enum):
    CLOSE = "<i>"

    def __html__(self):
        return self


class Wrong:
    def __html__(self):
        return 5


class Failing:
    def __html__(self):
        raise KeyError("of its own")


def test_html_itself():
    """what has __html__ says itself what it is as HTML, in html alone"""
    assert library.html(Bold("&")) == "<b>&</b>"
    assert library.html(Page()) == "<p>"
    assert library.json(Bold("&")) == '"&"'
    assert library.script(Bold("&")) == '"\\u0026"'
    assert type(raised_by(library.html, Wrong())) is TypeError
    assert type(raised_by(library.html, Failing())) is KeyError
    assert type(raised_by(library.script, Page())) is TypeError
    for given, wanted in (Page(), "<p>"), (Icon.CLOSE, "<i>"):
        output = library.html(given, markup=True)
        assert output == wanted and type(output) is library.Markup


def test_markup():
    """markup=True returns a str that html leaves as it is, for each text"""
    for call, theirs in (library.html, as_html), (library.script, as_script):
        for text in each_text(11, 500):
            for given in text, text.encode(), bytearray(text.encode()):
                output = call(given, markup=True)
                assert type(output) is library.Markup and output == theirs(text), (call.__name__, text)
                assert library.html(output) is output and output.__html__() is output
        long = "<\xe9" * RELEASE
        assert call(long.encode(), markup=True) == call(long, markup=True) == theirs(long)
        assert type(call("<", markup=False)) is type(call("<", markup=0)) is str
    output = library.html("<", markup=True)
    assert isinstance(output, str) and not hasattr(output, "__dict__")
    assert type(output + "<") is str and library.html(output + "<") == "&amp;lt;&lt;"
    assert type(pickle.loads(pickle.dumps(output))) is library.Markup


def test_templates():
    """Jinja and MarkupSafe escape Markup no second time, and html takes their Markup"""
    try:
        import jinja2
        import markupsafe
    except ImportError as error:
        raise Skipped(error)
    environment = jinja2.Environment(autoescape=True)
    page = environment.from_string("<p>{{ a }}</p><script>{{ b }}</script>{{ c }}")
    output = page.render(a=library.html("<a>", markup=True), b=library.script("</script>", markup=True), c=library.html("<"))
    assert output == '<p>&lt;a&gt;</p><script>"\\u003c/script\\u003e"</script>&amp;lt;', output
    environment.filters["script"] = lambda text: library.script(text, markup=True)
    assert environment.from_string("{{ a | script }}").render(a="<'>") == "\"\\u003c'\\u003e\""
    assert markupsafe.escape(library.html("<", markup=True)) == "&lt;"
    assert markupsafe.Markup("%s") % library.html("<", markup=True) == "&lt;"
    assert library.html(markupsafe.Markup("<b>")) == "<b>"


# --- memory and threads ---


def in_another_python(program, *arguments):
    """What the program prints in a Python of its own, which finds the package as this one does."""
    settings = dict(os.environ, PYTHONPATH=os.pathsep.join(sys.path), PYTHONDONTWRITEBYTECODE="1")
    ended = subprocess.run([sys.executable, "-c", program, *arguments], env=settings, stdout=subprocess.PIPE, stderr=subprocess.PIPE)
    assert ended.returncode == 0, ended.stderr.decode()[-500:]
    return ended.stdout.decode()


MEASURED = r"""
import sys, escape_simd

def peak(reset=False):
    if reset:
        with open("/proc/self/clear_refs", "w") as file:
            file.write("5")
    with open("/proc/self/status") as file:
        return next(int(line.split()[1]) for line in file if line.startswith("VmHWM")) * 1024

name, character, size, kind = sys.argv[1:]
text = eval(character) * int(size)
copy = len(text.encode()) if not text.isascii() else 0
if kind == "bytes":
    text, copy = text.encode(), 0
before = peak(True)
output = getattr(escape_simd, name)(text)
print(peak() - before, sys.getsizeof(output), copy)
"""


def test_memory():
    """300 MB take the memory of the output, and for a str that is not ASCII one copy of the text"""
    if not os.path.exists("/proc/self/clear_refs"):
        raise Skipped("there is no /proc")
    for name, character, size, kind in [
        ("json", "'a'", 300_000_000, "str"),
        ("json", "'a'", 300_000_000, "bytes"),
        ("html", "'<aaa'", 75_000_000, "str"),
        ("html", "'<'", 50_000_000, "bytes"),
        ("script", r"'\x01'", 50_000_000, "str"),
        ("html", r"'\u044f'", 150_000_000, "str"),
        ("script", r"'\u044f<'", 60_000_000, "str"),
        ("json", r"'\u044f'", 150_000_000, "bytes"),
    ]:
        took, output, copy = map(int, in_another_python(MEASURED, name, character, str(size), kind).split())
        # Two MB for Python itself. Python encodes into more memory than it keeps, and lets that go before the output is made.
        assert took <= max(output + copy, 2 * copy) + 2_000_000, (name, character, kind, took, output, copy)


def test_markup_memory():
    """300 MB as Markup take twice the memory of the output, since Python makes a subclass of str only as a copy"""
    if not os.path.exists("/proc/self/clear_refs"):
        raise Skipped("there is no /proc")
    program = MEASURED.replace("(name)(text)", "(name)(text, markup=True)")
    for name, character, size in [("html", "'<aaa'", 75_000_000), ("script", "'a'", 300_000_000), ("html", r"'\u044f<'", 60_000_000)]:
        took, output, copy = map(int, in_another_python(program, name, character, str(size), "str").split())
        assert took <= 2 * output + copy + 2_000_000, (name, character, took, output, copy)


REFUSED = r"""
import resource, escape_simd
texts = ["a<" * 10_000_000, b"a<" * 10_000_000, "\u044f<" * 7_000_000]
for text in texts:
    escape_simd.json(text[:10])
with open("/proc/self/statm") as file:
    size = int(file.read().split()[0]) * resource.getpagesize()
resource.setrlimit(resource.RLIMIT_AS, (size + 15_000_000, -1))
for text in texts:
    for call in escape_simd.json, escape_simd.html, escape_simd.script:
        for _ in range(3):
            try:
                call(text)
            except MemoryError:
                print("refused")
            assert len(call(text[:2])) >= 2
"""


def test_refused_memory():
    """memory that is refused is a MemoryError, and the next calls succeed"""
    if not os.path.exists("/proc/self/statm"):
        raise Skipped("there is no /proc")
    assert in_another_python(REFUSED).split() == ["refused"] * 27


COUNTED = r"""
import sys, escape_simd
def blocks(call, text):
    for _ in range(3):
        attempt(call, text)
    before = sys.getallocatedblocks()
    for _ in range(200):
        attempt(call, text)
    return sys.getallocatedblocks() - before
def attempt(call, text):
    try:
        call(text)
    except (TypeError, ValueError):
        pass
class Page:
    def __html__(self): return "<p>"
class Wrong:
    def __html__(self): return 5
calls = [escape_simd.json, escape_simd.html, escape_simd.script, lambda text: escape_simd.html(text, markup=True), lambda text: escape_simd.script(text, markup=True)]
texts = ["a<", "\xe9<" * 9000, b"a<", b"a<" * 9000, bytearray(b"a<"), b"\xff", b"a" * 9000 + b"\xff", "\ud800", 5, Page(), Wrong()]
print(max(blocks(call, text) for call in calls for text in texts))
"""


def test_references():
    """200 calls of each kind leave no object behind, also where they fail"""
    assert int(in_another_python(COUNTED)) < 100


def test_threads():
    """four threads at once"""
    wrong, ended = [], []

    def run(seed):
        for text in each_text(seed, 300):
            text = text * (1 + 80 * (len(text) % 3))
            for ours, theirs in PAIRS:
                if ours(text) != theirs(text):
                    wrong.append(text)
        ended.append(seed)

    threads = [threading.Thread(target=run, args=(seed,)) for seed in range(4)]
    for thread in threads:
        thread.start()
    for thread in threads:
        thread.join()
    assert not wrong, wrong[0]
    # One that raises doesn't end.
    assert sorted(ended) == [0, 1, 2, 3], ended


INTERPRETERS = r"""
try:
    import _interpreters as interpreters
except ImportError:
    import _xxsubinterpreters as interpreters
said = interpreters.run_string(interpreters.create(), "import escape_simd; assert escape_simd.html('<') == '&lt;'")
print("refused:" if said else "imported", said or "")
"""


def test_other_interpreters():
    """another interpreter of the process imports it too"""
    said = in_another_python(INTERPRETERS)
    assert said == "imported \n", said


def test_other_threads_run():
    """while a long text is escaped, another thread runs; while a short one is, none does"""
    count, running, interval = 0, True, sys.getswitchinterval()

    def run():
        nonlocal count
        while running:
            count += 1
            # It lets the other thread run, which asks for that only after the interval.
            time.sleep(0)

    def runs_during(call, text, seconds=0):
        before, end = count, time.monotonic() + seconds
        while True:
            for _ in range(20):
                call(text)
            if count != before or end <= time.monotonic():
                return count != before

    texts = "a" * 10_000_000, b"a" * 10_000_000, "\u044f" * 5_000_000
    for text in texts:
        library.html(text)
    thread = threading.Thread(target=run)
    thread.start()
    # It is longer than all that follows: so the other thread runs only while a call lets it.
    sys.setswitchinterval(3600)
    try:
        # On a busy machine it may take a while until the other thread has a processor.
        long = all(runs_during(ours, text, 20) for ours, _ in PAIRS for text in texts)
        short = any(runs_during(ours, text[:1000]) for ours, _ in PAIRS for text in texts)
    finally:
        running = False
        sys.setswitchinterval(interval)
        thread.join()
    assert long and not short, (long, short)


# --- the package ---


def test_names():
    """__all__, the version of escape.h, docstrings, signatures, and a type hint for each name"""
    with open(os.path.join(C, "escape.h")) as header:
        numbers = dict(re.findall(r"#define ESCAPE_VERSION_(M\w+|PATCH) (\d+)", header.read()))
    assert library.__version__ == ".".join(numbers[name] for name in ("MAJOR", "MINOR", "PATCH"))
    assert library.__all__ == ["Markup", "__version__", "html", "json", "script"]
    assert str(inspect.signature(library.json)) == "(text, /)"
    assert str(inspect.signature(library.html)) == str(inspect.signature(library.script)) == "(text, /, *, markup=False)"
    folder = os.path.dirname(library.__file__)
    with open(os.path.join(folder, "__init__.pyi")) as file:
        hinted = {getattr(item, "name", getattr(getattr(item, "target", None), "id", None)) for item in ast.parse(file.read()).body}
    for name in library.__all__:
        assert name in hinted and (name == "__version__" or getattr(library, name).__doc__), name
    assert os.path.exists(os.path.join(folder, "py.typed"))


def test_wheel():
    """the wheel's tag has the newest version of glibc's symbols that its files need"""
    if not shutil.which("readelf"):
        raise Skipped("there is no readelf")
    wheel = distribution("escape-simd")
    files = [str(file.locate()) for file in wheel.files if ".so" in file.name]
    needed = subprocess.check_output(["readelf", "--version-info", "--wide", *files], universal_newlines=True)
    newest = max(int(number) for number in re.findall(r"Name: GLIBC_2\.(\d+)", needed))
    tag = re.search(r"^Tag: (.*)$", wheel.read_text("WHEEL"), re.M).group(1)
    assert tag.endswith("-manylinux_2_%d_%s" % (max(newest, 5), os.uname().machine)), tag


def test_what_it_says():
    """the examples of its docstring"""
    failed, tried = doctest.testmod(library)
    assert tried and not failed


def test_page():
    """the examples of docs/C.md"""
    with open(os.path.join(os.path.dirname(C), "docs", "C.md")) as page:
        examples = re.findall(r"^(\w+\(.*\)) +# (b?'.*')$", page.read(), re.M)
    assert len(examples) == 4
    for call, output in examples:
        assert eval(call, vars(library).copy()) == ast.literal_eval(output), call


def main():
    counts = {"passed": 0, "failed": 0, "skipped": 0}
    for test in [test for name, test in list(globals().items()) if name.startswith("test_")]:
        name, ended = "Python %d.%d: %s" % (sys.version_info[:2] + (test.__doc__,)), "passed"
        try:
            test()
        except Skipped as said:
            ended, name = "skipped", "%s: %s" % (name, said)
        except Exception as error:
            ended, name = "failed", "%s: %s: %.300s" % (name, type(error).__name__, error)
        counts[ended] += 1
        print(ended, name, flush=True)
    print("%(passed)d passed, %(failed)d failed, %(skipped)d skipped" % counts)
    return counts["failed"] != 0


sys.exit(main())
