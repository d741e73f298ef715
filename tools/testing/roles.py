"""That tools/check-names finds each crate of the kit that isn't called where it has a role, in sources of the test's own."""

from checking.crates import ROLES, faults
from testing.network import expect

CALLS = (
    "use {0}::Made;\n\nfn made() -> Made {{\n    Made::new()\n}}\n",
    "use {0}::parts::{{Made as One, Other}};\n\nfn made() -> u8 {{\n    One::<u8>::new(Other)\n}}\n",
    "fn made() {{\n    {0}::parts::made::<u8>(b'\"')\n}}\n",
)
# What has the name and calls nothing.
NO_CALLS = (
    "", "use {0}::made;\n", "// {0}::made()\n", 'const TEXT: &str = "{0}::made()";\n',
    "ghost use Rattle.{0}.specs.Made.{{made}};\n\nfn one()\n    ensures {{ made (1 + 2) }}\n{{\n}}\n",
    "use {0}::Made;\n\nstruct Kept(Made);\n", "fn {0}() {{\n}}\n", "fn made(kept: u8) {{\n    kept.{0}()\n}}\n",
)
ERROR = "crates/coap_dedup/src/error.rt"
DERIVED = "use thiserror::Error;\n\n/// Why not.\n#[derive(Debug, Error)]\npub enum Refused {\n    Full,\n}\n"
RESULT = "fn keep(\n    kept: Result<u8, u8>,\n) -> Result<\n    Vec<(u8, fn(u8) -> u8)>,\n    Refused,\n> {\n}\n"


def source_of(name, place):
    """The path of a file in which a crate may be called."""
    return place if place.endswith(".rt") else f"{place}{name.lower()}.rt"


def sources(call):
    """Sources in which each crate is called in this form."""
    return {source_of(name, place): call.format(name) for name, place, _ in ROLES}


def each_form_of_a_call_is_one():
    """By what is imported, under its name or another, or by the whole path."""
    for call in CALLS:
        expect(f"what is told of {call!r}", [], list(faults(sources(call))))


def what_calls_nothing_is_told():
    """Of each crate, where the others are called; so is one that is called by an example or elsewhere."""
    for name, place, what in ROLES:
        right, path = sources(CALLS[0]), source_of(name, place)
        call = right.pop(path)
        wrong = [{path: text.format(name)} for text in NO_CALLS]
        wrong += [{path.rpartition("/")[0] + "/examples.rt": call}, {"crates/coap_model/src/lib.rt": call}]
        for changed in wrong:
            wanted = [f"{place}: {name} isn't called, which is there for {what}"]
            expect(f"what is told of {changed}", wanted, list(faults({**right, **changed})))


def an_error_derives_that_of_the_kit():
    """A public type that is the error of a result, and no other."""
    right = {**sources(CALLS[0]), "crates/coap_core/src/step.rt": RESULT}
    told = [f"{ERROR}: Refused is the error of a result and doesn't derive thiserror::Error"]
    for old, new, wanted in (
        ("", "", []), (", Error)", ")", told), ("use thiserror", "use std::error", told), ("Refused", "Other", []),
        ("Error)", "thiserror::Error)", []), ("#[derive(Debug, Error)]\n", "", told),
    ):
        source = {ERROR: DERIVED.replace(old, new)}
        expect(f"what is told of {source}", wanted, list(faults({**right, **source})))


CASES = each_form_of_a_call_is_one, what_calls_nothing_is_told, an_error_derives_that_of_the_kit
