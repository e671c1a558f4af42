"""JSON string literals, HTML, and JSON literals that are safe inside a script element.

    >>> json('a"b')
    '"a\\\\"b"'
    >>> html("<a href='/x'>")
    '&lt;a href=&#x27;&#x2f;x&#x27;&gt;'
    >>> script(b"</script>")
    b'"\\\\u003c/script\\\\u003e"'

A str returns a str, and bytes return bytes. A str with a lone surrogate raises UnicodeEncodeError, and bytes that are
not UTF-8 raise UnicodeDecodeError. html and script return Markup if they are called with markup=True: a str that
templates do not escape again.
"""

from . import _escape

__all__ = ["Markup", "__version__", "html", "json", "script"]
__version__ = "%d.%d.%d" % (_escape.version // 10000, _escape.version // 100 % 100, _escape.version % 100)


class Markup(str):
    """A str that is HTML already: what looks for __html__, as Jinja and MarkupSafe do, does not escape it again."""

    __slots__ = ()

    def __html__(self):
        """Returns the text itself."""
        return self


def _text(name, text, as_str=False):
    """Returns the text of an object as a str if it is one or if that is wanted, else as bytes."""
    if issubclass(type(text), str):
        return str.__str__(text)
    if type(text) is not bytes:
        try:
            view = memoryview(text)
        except TypeError:
            view = None
        if view is None or view.itemsize != 1:
            raise TypeError("%s() takes a str or bytes, not %s" % (name, type(text).__name__))
        # A copy: another thread could change the object.
        text = bytes(view)
    return text.decode() if as_str else text


def json(text, /):
    return _escape.json(_text("json", text))


def html(text, /, *, markup=False):
    if hasattr(text, "__html__"):
        output = text.__html__()
        if not issubclass(type(output), str):
            raise TypeError("__html__() returned %s, not a str" % type(output).__name__)
    else:
        output = _escape.html(_text("html", text, markup))
    return Markup(str.__str__(output)) if markup else output


def script(text, /, *, markup=False):
    output = _escape.script(_text("script", text, markup))
    return Markup(output) if markup else output


# The calls in C are for a str or bytes alone. With other arguments they call these, which have the same names, since
# Python's errors give the name of a function.
_escape._json, _escape._html, _escape._script = json, html, script
json, html, script = _escape.json, _escape.html, _escape.script
