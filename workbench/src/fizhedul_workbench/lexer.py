"""The lexer of databases and queries, for the shell and for pictures."""

from pygments.formatters import HtmlFormatter, TerminalFormatter
from pygments.lexer import RegexLexer, bygroups
from pygments.token import Comment, Keyword, Name, Number, Operator, Punctuation, String, Text

OPERATORS = ["once", "always", "since", "until"]
# Of the wide language: a word at the beginning of a definition, and one between its columns and its formula.
DEFINING = ["define", "as"]
KEYWORDS = ["relation", "where", "exists", "forall", "not", "and", "or", "implies", "in"]
SORTS = ["time", "data"]


class LrpLexer(RegexLexer):  # type: ignore[misc]
    """Tokens of both grammars, as colours."""

    name = "Fizhedul"
    aliases = ["fizhedul"]
    tokens = {
        "root": [
            (r"\s+", Text),
            (r"#[^\n]*", Comment.Single),
            (r'"(?:[^"\\]|\\.)*"?', String),
            (r"\b(?:daily|weekly [a-z]{3}|on \d{4}-\d\d-\d\d) \d\d:\d\d\b", Number),
            (r"\bevery \d+ (?:minutes|hours|days|weeks) from \d{4}-\d\d-\d\d \d\d:\d\d\b", Number),
            (r"-?\d+\s*\+\s*\d+\s*n\b", Number),
            (r"\d+", Number),
            (r"\b(?:" + "|".join(KEYWORDS) + r")\b", Keyword),
            (r"\b(?:" + "|".join(SORTS) + r")\b", Keyword.Type),
            # Of an operator a name comes next, and a bracket after it.
            (r"\b(?:" + "|".join(OPERATORS) + r")(?=\s+[A-Za-z_][A-Za-z0-9_]*\s*\()", Keyword),
            (r"\bdefine(?=\s+[A-Za-z_][A-Za-z0-9_]*\s*\()", Keyword),
            (r"(\))(\s*)(as)\b", bygroups(Punctuation, Text, Keyword)),
            (r"[A-Za-z_][A-Za-z0-9_]*(?=\s*\()", Name.Function),
            (r"[A-Za-z_][A-Za-z0-9_]*", Name),
            (r"<=|>=|!=|[<>=+*-]", Operator),
            (r"[(){},:;|]", Punctuation),
            (r".", Text),
        ]
    }


def coloured(text: str) -> str:
    """The text with the escapes of a terminal."""
    from pygments import highlight

    return str(highlight(text, LrpLexer(), TerminalFormatter())).rstrip("\n")


def marked_up(text: str) -> str:
    """The text as HTML, with a class for each kind of token."""
    from pygments import highlight

    return str(highlight(text, LrpLexer(), HtmlFormatter(nowrap=True))).rstrip("\n")
