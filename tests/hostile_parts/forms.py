"""Each form of expressions that nests, as high as may be and one higher."""
from measure_sources import block

DECLARED = '''declaration structure P:
  data a content integer
declaration enumeration E:
  -- C content integer
  -- D
  -- M content E2
declaration enumeration E2:
  -- F
declaration scope T:
  input n content integer
  output x content integer
scope T:
  definition x equals n
declaration scope S:
  input n content integer
  input b content boolean
  input l content list of integer
  input q content decimal
  input m content money
  input d content date
  input t content duration
  internal f content integer depends on a content integer
  output x content %s
scope S:
  definition f of a equals a
  definition x equals %s'''
GIVEN = b'{"n":1,"b":true,"l":[1],"q":"0.5","m":1,"d":"2024-01-31","t":{"days":1,"months":0}}'
MOST = 256

# A form, by how much it is higher than its part, the part in the middle, and the type of all of it.
FORMS = [
    ('(%s)', 1, 'n', 'integer'), ('- %s', 1, 'n', 'integer'), ('%s + n', 1, 'n', 'integer'), ('%s - n', 1, 'n', 'integer'),
    ('n - (%s)', 2, 'n', 'integer'), ('%s * n', 1, 'n', 'integer'), ('n * (%s)', 2, 'n', 'integer'),
    ('%s / 1.0', 1, 'q', 'decimal'), ('%s * 1.0', 1, 'm', 'money'), ('%s + 1 day', 1, 'd', 'date'),
    ('%s * 1', 1, 't', 'duration'), ('d + (%s - d)', 3, 'd', 'date'), ('if b then %s else n', 1, 'n', 'integer'),
    ('if b then n else %s', 1, 'n', 'integer'), ('if %s then b else b', 1, 'b', 'boolean'), ('not %s', 1, 'b', 'boolean'),
    ('%s and b', 1, 'b', 'boolean'), ('b and (%s)', 2, 'b', 'boolean'), ('%s or b', 1, 'b', 'boolean'),
    ('%s xor b', 1, 'b', 'boolean'), ('b or not (%s)', 3, 'b', 'boolean'), ('(%s) = b', 2, 'b', 'boolean'),
    ('[%s] contains b', 2, 'b', 'boolean'), ('for all w among l we have %s', 1, 'b', 'boolean'),
    ('exists w among l such that %s', 1, 'b', 'boolean'), ('exists w among [%s] such that w', 2, 'b', 'boolean'),
    ('(C content (if %s then 1 else 2)) with pattern C', 5, 'b', 'boolean'),
    ('match D with pattern -- C : n -- anything : %s', 1, 'n', 'integer'),
    ('match C content (%s) with pattern -- C of w : w -- anything : n', 3, 'n', 'integer'),
    ('combine all w among l in s initially 0 with %s', 1, 'n', 'integer'),
    ('combine all w among l in s initially %s with s', 1, 'n', 'integer'),
    ('combine all w among [%s] in s initially 0 with s + w', 2, 'n', 'integer'), ('number of [%s]', 2, 'n', 'integer'),
    ('sum integer of [%s]', 2, 'n', 'integer'), ('number of map each w among l to %s', 2, 'n', 'integer'),
    ('number of map each w among [%s] to w', 3, 'n', 'integer'),
    ('number of list of w among [%s] such that b', 3, 'n', 'integer'), ('integer of decimal of %s', 2, 'n', 'integer'),
    ('round of %s', 1, 'q', 'decimal'), ('money of (%s) / m', 3, 'q', 'decimal'),
    ('get_year of (d + 1 day * %s)', 4, 'n', 'integer'), ('P { -- a : %s } . a', 2, 'n', 'integer'),
    ('output of T with { -- n : %s } . x', 1, 'n', 'integer'), ('f of (%s)', 2, 'n', 'integer'),
]


def of_height(form, adds, middle, height):
    """The form in itself up to a height, with parentheses in the middle for what is left."""
    times, rest = divmod(height - 1, adds)
    text = '(' * rest + middle + ')' * rest
    for _ in range(times):
        text = form % text
    return text


def nested_sources(number):
    """Of a form the source at the greatest height and one past it, with whether it is accepted."""
    form, adds, middle, kind = FORMS[number]
    for height in (MOST, MOST + 1):
        text = of_height(form, adds, middle, height)
        yield form, block((DECLARED % (kind, text)).split('\n')).encode(), height == MOST
