"""Whether the crates of the kit that the program stands on do in it what they are there for."""

import re

# The name of a crate or of a type, the folder or the file of the code that must call it, and for what.
ROLES = (
    ("lru", "crates/coap_store_lru/src/", "the stored responses in the order of their use"),
    ("circular_buffer", "crates/coap_dedup/src/", "the records of duplicates"),
    ("BTreeMap", "crates/coap_dedup/src/", "the maps in which these are found"),
    ("indexmap", "crates/coap_exchange/src/table.rt", "the tables of exchanges and of waiters"),
    ("Table", "crates/coap_exchange/src/exchanges.rt", "the table of exchanges"),
    ("Table", "crates/coap_exchange/src/waiters.rt", "the table of waiters"),
    ("url", "crates/coap_uri/src/", "the URIs of targets"),
    ("percent_encoding", "crates/coap_uri/src/", "their paths, queries and names"),
    ("hex", "crates/coap_lines/src/", "the bytes of a datagram in a line"),
    ("toml", "crates/coap_config/src/", "the file of the configuration"),
    ("clap", "crates/coap_config/src/", "the words of the command line"),
)
# Files whose functions state examples and laws, or are tests.
ASIDE = ("examples.rt", "laws.rt", "tests.rt")

COMMENT_OR_TEXT = re.compile(r"""//[^\n]*|/\*.*?\*/|b?r(#*)".*?"\1|b?"(?:\\.|[^"\\])*"|b?'(?:\\[^'\n]+|[^\\'\n])'""", re.S)
# A path with its parenthesis right behind it, as no word of a clause has it.
CALL = re.compile(r"(?<![\w.:])(?<!fn )((?:\w+(?:::<[^()]*>)?::)*[a-z_]\w*)(?:::<[^()]*>)?\(")
USE = re.compile(r"^ *(?:pub(?:\(\w+\))? )?use ([^;]*);", re.M)
RESULT = re.compile(r"(?<![\w:])Result<")
# An error is an enum, or has no fields: a result may also give back what it was given.
TYPE = re.compile(r"((?:#\[[^\]]*\]\s*)*)pub (?:enum (\w+)|struct (\w+);)")


def code_of(text):
    """The code of a file, without comments and texts."""
    return COMMENT_OR_TEXT.sub(" ", text)


def names_from(crate, code):
    """The names that code has for a crate, or for what it imports from it."""
    uses = [used for used in USE.findall(code) if re.match(rf"(::)?{crate}\b", used)]
    return {crate}.union(*(re.findall(r"(\w+)\s*(?=[,}]|\Z)", used) for used in uses))


def calls(name, code):
    """Whether code calls something of a crate, or of a type."""
    names = names_from(name, code)
    return any(path != name and re.split(r"\W", path)[0] in names for path in CALL.findall(code))


def last_argument(code, place):
    """The last of several types that begin at a place and end with an angle bracket, or none if it is the only one."""
    parts, depth = [""], 0
    for sign in code[place:].replace("->", "  "):
        depth += (sign in "<([") - (sign in ">)]")
        if depth < 0:
            break
        if sign == "," and depth == 0:
            parts.append("")
        else:
            parts[-1] += sign
    types = [part.strip() for part in parts if part.strip()]
    return types[-1] if len(types) > 1 else ""


def errors_in(code):
    """The names of the types that code has as the errors of results."""
    types = (last_argument(code, found.end()) for found in RESULT.finditer(code))
    return {re.sub(r"<.*", "", it, flags=re.S).split("::")[-1] for it in types}


def underived(code, errors):
    """The names of these errors that code declares as public without deriving `thiserror::Error`."""
    derive = names_from("thiserror", code) - {"thiserror"}
    for attributes, *names in TYPE.findall(code):
        name = "".join(names)
        derived = re.findall(r"[\w:]+", " ".join(re.findall(r"\bderive\((.*?)\)", attributes, re.S)))
        if name in errors and not derive.union({"thiserror::Error"}).intersection(derived):
            yield name


def faults(sources):
    """What is wrong with sources, by their paths: a crate that isn't called where it has its role, and an error of a
    function that doesn't derive the error of `thiserror`."""
    codes = {path: code_of(text) for path, text in sources.items() if not path.endswith(ASIDE)}
    for name, place, what in ROLES:
        if not any(path.startswith(place) and calls(name, code) for path, code in codes.items()):
            yield f"{place}: {name} isn't called, which is there for {what}"
    errors = set().union(*map(errors_in, codes.values()))
    for path, code in sorted(codes.items()):
        for name in underived(code, errors):
            yield f"{path}: {name} is the error of a result and doesn't derive thiserror::Error"
