"""Bytes that no editor writes, put into sources and inputs, and names that are long."""
import random

MIB = 2**20
# In a text, and as all of it.
ODD = [
    b'\0', b'\r', b'\r\n', b'\n\r', b'\xef\xbb\xbf', b'\xff\xfe', b'\xc0\x80', b'\xe0\x80\x80', b'\xf0\x80\x80\x80',
    b'\xed\xa0\x80', b'\xed\xbf\xbf', b'\xf4\x90\x80\x80', b'\xf5\x80\x80\x80', b'\xfe', b'\x80', b'\xc3', b'\xe2\x82',
    b'\xf0\x9f\x98', b'\xf0\x9f\x98\x80', b'\xc2\xa0', b'\xe2\x80\xa8', b'\xe2\x80\x8b', b'\xe2\x80\xae', b'\xcc\x81',
    b'\x0b', b'\x0c', b'\x1a', b'\x1b[2J', b'\x7f', b'\xc2\x85', b'\\n', b'\\', b'%s', b'```', b'```catala\n',
    b'> Include: a.md\n', b'> Include: \n', b'\xc3\xa9', b'\xce\xa3', b'\xf0\x9d\x94\x98',
]
HEAD = b'```catala\ndeclaration scope S:\n  input n content integer\n  output x content integer\nscope S:\n'
END = b'\n```\n'
PLAIN = HEAD + b'  definition x equals n' + END


def with_odd_bytes(text):
    """Odd bytes alone, in front of the text, behind it, in its middle, in the place of line feeds and blanks, and behind each n."""
    for odd in ODD:
        middle = len(text) // 2
        yield odd, odd
        yield odd, odd + text
        yield odd, text + odd
        yield odd, text[:middle] + odd + text[middle:]
        yield odd, text.replace(b'\n', odd)
        yield odd, text.replace(b' ', odd)
        yield odd, text.replace(b'n', b'n' + odd)


def long_sources():
    """Sources with one part of 1 MiB, by name."""
    name, capital, letters = b'n' * MIB, b'N' * MIB, 'é'.encode() * (MIB // 2)
    yield 'a variable', PLAIN.replace(b' n', b' ' + name), b'{"%s":1}' % name, 'S'
    yield 'a variable of other letters', PLAIN.replace(b' n', b' ' + letters), b'{"%s":1}' % letters, 'S'
    yield 'a name that is unknown', PLAIN.replace(b'equals n', b'equals ' + name), b'{"n":1}', 'S'
    yield 'a scope', PLAIN.replace(b' S:', b' %s:' % capital), b'{"n":1}', 'S'
    yield 'a label', PLAIN.replace(b'definition', b'label %s definition' % name), b'{"n":1}', 'S'
    yield 'a label that is unknown', PLAIN.replace(b'definition', b'exception %s definition' % name), b'{"n":1}', 'S'
    yield 'a comment', PLAIN.replace(b'equals n', b'equals n #' + name), b'{"n":1}', 'S'
    yield 'a number', PLAIN.replace(b'equals n', b'equals ' + b'1' * MIB), b'{"n":1}', 'S'
    yield 'zeros in front', PLAIN.replace(b'equals n', b'equals ' + b'0' * MIB + b'1'), b'{"n":1}', 'S'
    yield 'a line of law', name + b'\n' + PLAIN, b'{"n":1}', 'S'
    yield 'blanks', PLAIN.replace(b'equals n', b'equals ' + b' ' * MIB + b'n'), b'{"n":1}', 'S'
    yield 'line feeds', PLAIN.replace(b'equals n', b'equals ' + b'\n' * MIB + b'n'), b'{"n":1}', 'S'
    yield 'number signs', b'#' * MIB + PLAIN, b'{"n":1}', 'S'
    yield 'backquotes', b'`' * MIB + b'\n' + PLAIN, b'{"n":1}', 'S'


def long_inputs():
    """Inputs of the plain scope with one part of 1 MiB, by name."""
    yield 'a number', b'{"n":%s}' % (b'1' * MIB)
    yield 'zeros behind a point', b'{"n":1.%s}' % (b'0' * MIB)
    yield 'an exponent', b'{"n":1e%s}' % (b'1' * MIB)
    yield 'blanks', b'{"n":%s1}' % (b' ' * MIB)
    yield 'a key', b'{"%s":1}' % (b'n' * MIB)
    yield 'escapes', b'{"%s":1}' % (b'\\u006e' * (MIB // 6))
    yield 'a text', b'{"n":"%s"}' % (b'n' * MIB)
    yield 'brackets', b'[' * MIB
    yield 'braces', b'{"n":' * (MIB // 5)


ODD_INPUTS = [
    b'', b' ', b'null', b'1', b'"n"', b'[]', b'{}', b'{"n":1}{', b'{"n":1} x', b'{"n":1,"n":2}', b'{"n":1,}', b'{,"n":1}',
    b'{"n" 1}', b"{'n':1}", b'{n:1}', b'{"n":01}', b'{"n":+1}', b'{"n":-}', b'{"n":-0}', b'{"n":1.}', b'{"n":.1}',
    b'{"n":1e}', b'{"n":1e400}', b'{"n":-1e400}', b'{"n":1e2}', b'{"n":1.0}', b'{"n":9223372036854775807}',
    b'{"n":-9223372036854775807}', b'{"n":-9223372036854775808}', b'{"n":18446744073709551615}',
    b'{"n":18446744073709551616}', b'{"n":NaN}', b'{"n":Infinity}', b'{"n":"1"}', b'{"n":null}', b'{"n":[1]}',
    b'{"n":{"n":1}}', b'{"\\u006e":1}', b'{"n\\u0000":1}', b'{"\\ud800":1}', b'{"\\ud83d\\ude00":1}',
    b'{"\\udc00\\ud800":1}', b'{"\\x6e":1}', b'{"n\n":1}', b'{"n":tru}', b'{"n":true}', b'{"n":1/*x*/}', b'{"n":1}//x',
    b'{"n":0x1}', b'{"n":1_0}', b'\xef\xbb\xbf{"n":1}', b'{"n":1}\0', b'{"n":1}\n\n', b'\x0c{"n":1}', b'{"q":1,"n":1}',
    b'{"":1}', b'{"n":1,"":2}', b'{"N":1}', b'{"a\\nb":1,"n":1}',
    b'{"a\\tb.c[0]":1,"n":1}', b'{"\\u2028\\r":1,"n":1}',
]


def random_texts(count, text, seed):
    """Texts of random bytes, and the text with some of its bytes at random."""
    chance = random.Random(seed)
    for k in range(count):
        if k % 2:
            yield bytes(chance.randrange(256) for _ in range(chance.randrange(200)))
        else:
            made = bytearray(text)
            for _ in range(chance.randrange(1, 9)):
                made[chance.randrange(len(made))] = chance.randrange(256)
            yield bytes(made)
