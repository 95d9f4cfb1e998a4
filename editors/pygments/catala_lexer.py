"""The code of Catala statutes for Pygments; where it is installed, Pygments' own Markdown has it in the blocks of a law too."""
import unicodedata

from pygments.lexer import RegexLexer, words
from pygments.token import Comment, Keyword, Name, Number, Operator, Punctuation, Whitespace

BLANK = r'[ \t\r\n]+'
# A word goes on with what stands on or behind a letter too, an accent say, which Python's \w leaves out.
MARKS = ''.join(mark for mark in map(chr, range(0x300, 0x20000)) if unicodedata.category(mark) in ('Mn', 'Mc'))
WORD = r'[\w%s]' % MARKS
END = '(?!%s)' % WORD


def pairs(*names):
    """Pairs of words, which may be parted by the end of a line."""
    return '(?:%s)%s' % ('|'.join(name.replace(' ', BLANK) for name in names), END)


def keywords(names):
    return words(names.split(), suffix=END)


class CatalaLexer(RegexLexer):
    """The code of a statute, without the law text around it."""

    name = 'Catala'
    aliases = ['catala']
    filenames = []
    tokens = {
        'root': [
            (BLANK, Whitespace),
            (r'#(?!\[).*', Comment.Single),
            (r'[0-9]+(?:\.[0-9]+)?[ \t]*%|[0-9]+\.[0-9]+', Number.Float),
            (r'[0-9]+', Number.Integer),
            (r'\$[0-9]+(?:,[0-9]{3})*(?:\.[0-9]{1,2})?', Number.Money),
            (r'\|[0-9]{4}-[0-9]{2}-[0-9]{2}\|', Number.Date),
            (pairs('list of'), Keyword.Type),
            (pairs('depends on'), Keyword.Declaration),
            (pairs('under condition', 'date round'), Keyword.Reserved),
            (pairs('number of', 'round of'), Name.Builtin),
            (pairs('for all', 'we have', 'such that', 'map each', 'combine all', 'with pattern', 'output of'), Keyword),
            (keywords('declaration scope structure enumeration data content condition input output internal context'),
             Keyword.Declaration),
            (keywords('boolean integer decimal money date duration'), Keyword.Type),
            (keywords('definition rule equals consequence fulfilled assertion label exception increasing decreasing'),
             Keyword.Reserved),
            (keywords('of if then else match with anything among exists to in initially'), Keyword),
            (keywords('not and or xor contains'), Operator.Word),
            (keywords('true false year month day'), Keyword.Constant),
            (keywords('sum get_year get_month get_day'), Name.Builtin),
            (r'[A-Z]%s*' % WORD, Name.Class),
            (r'[^\W\d_A-Z]%s*' % WORD, Name.Variable),
            (r'--', Punctuation.Arm),
            (r'!=|<=|>=|[+\-*/=<>]', Operator),
            (r'[:.,;()\[\]{}]', Punctuation),
        ],
    }
