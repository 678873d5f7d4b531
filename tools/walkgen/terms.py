"""Pieces of antt text: tuples, lists, parentheses, binders, and names that are put in place of others."""
import re

TOKEN = re.compile(r"\s+|[()\[\]{},;]|[^\s()\[\]{},;]+")
LIST_IN_CLAUSE = re.compile(r"(?<![^\s(\[{,;])(\w+)\.(now|old|new)(?![\w.'-])")
SUBSCRIPTS = str.maketrans("0123456789", "₀₁₂₃₄₅₆₇₈₉")


def subscript(number):
    return str(number).translate(SUBSCRIPTS)


def tuple_of(terms, end="tt"):
    """`(a, (b, tt))`"""
    text = end
    for term in reversed(terms):
        text = f"({term}, {text})"
    return text


def list_of(items):
    """`a ∷ b ∷ []`"""
    return " ∷ ".join([*items, "[]"])


def part(term, index):
    """The part of a nested tuple at index: `a.1.1.0`"""
    return term + ".1" * index + ".0"


def enclosed(term):
    """The term as an argument: in parentheses, unless it is one word or has them already; a part of it is no more."""
    term = term.strip()
    if re.match(r"^[^\s()]+$", term) or stands_in_parentheses(re.sub(r"(\.\w+)+$", "", term)):
        return term
    return f"({term})"


def stands_in_parentheses(term):
    """Whether the first character opens what the last one closes."""
    if not (term.startswith("(") and term.endswith(")")):
        return False
    depth = 0
    for place, char in enumerate(term):
        depth += {"(": 1, ")": -1}.get(char, 0)
        if depth == 0 and place < len(term) - 1:
            return False
    return True


def bare(term):
    """The term without parentheses around it, unless it is a tuple."""
    term = term.strip()
    return term[1:-1].strip() if stands_in_parentheses(term) and "," not in term else term


def words_of(text):
    """The words of a text, also those that stand before a binder's dot or of which a part is taken."""
    return {word for token in TOKEN.findall(text) for word in (token.rstrip("."), token.split(".")[0])}


def replaced(text, meaning):
    """The text with each word that meaning has replaced by what it means, also where a part of it is taken."""
    return "".join(replaced_word(token, meaning) for token in TOKEN.findall(text))


def replaced_word(word, meaning):
    whole, dot, parts = word.partition(".")
    if dot and parts and whole in meaning:
        return f"{enclosed(meaning[whole])}.{parts}"
    return meaning.get(word, word)


def binders(variables):
    """`(a b : ℕ) (l : a < b)` of [(name, type)]: neighbours of one type are written together."""
    groups = []
    for name, statement in variables:
        if groups and groups[-1][1] == statement and not words_of(statement) & set(groups[-1][0]):
            groups[-1][0].append(name)
        else:
            groups.append(([name], statement))
    return " ".join(f"({' '.join(names)} : {statement})" for names, statement in groups)


def clause_at(clause, entry, plain, exits=None, result=None):
    """A contract's clause at given lists and terms.

    entry: the list that each slice has on entry, which `x.now` and `x.old` are. exits: the list that it has on exit,
    `x.new`. plain: the terms of the other parameters. result: the name of the answer, and its term.
    """
    exits = exits or {}
    terms = {name: enclosed(term) for name, term in plain.items()}
    if result:
        terms[result[0]] = enclosed(result[1])
    pieces, behind = [], 0
    for match in LIST_IN_CLAUSE.finditer(clause):
        name, moment = match.groups()
        if name not in entry:
            continue
        pieces.append(replaced(clause[behind:match.start()], terms))
        pieces.append(enclosed(exits.get(name, entry[name]) if moment == "new" else entry[name]))
        behind = match.end()
    text = "".join(pieces) + replaced(clause[behind:], terms)
    text = re.sub(r"\((\([^()]*\))\)", r"\1", text)
    return re.sub(r"\(([^\s()]+)\)", r"\1", text)
