"""The colours of ladders and charts, in light and in dark. Those of the sorts have the hues of Okabe and Ito, as bright
as it takes for colour-blind people to tell any two apart; a shape and words say the same as each colour."""

# For each name the colour in light, and the one in dark.
COLOURS = {
    "paper": ("#ffffff", "#11161d"),
    "panel": ("#f5f7fa", "#19202a"),
    "ink": ("#17202b", "#e7edf4"),
    "soft": ("#566373", "#9fb0c3"),
    "line": ("#c5ced8", "#3b4757"),
    "faint": ("#e6ebf0", "#232c38"),
    "hit": ("#059566", "#35e0a0"),
    "miss": ("#0e3f99", "#4aa0f0"),
    "validation": ("#ce5bac", "#f29cc8"),
    "error": ("#c64907", "#f08a35"),
    "plain": ("#66717e", "#9aa8b8"),
    "mark": ("#fff3c4", "#3a3413"),
    "over": ("#17202b0d", "#e7edf412"),
}
# The sorts of rows that a legend explains.
SORTS = (
    ("hit", "answered from the cache"), ("miss", "asked of the origin"), ("validation", "validated at the origin"),
    ("error", "went wrong"),
)


def variables(place):
    """Declarations of the colours for light (0) or dark (1)."""
    return "".join(f"--{name}:{pair[place]};" for name, pair in COLOURS.items())


def style():
    """The colours as variables of a style sheet, by what the reader's system prefers."""
    return f":root{{{variables(0)}}}@media (prefers-color-scheme:dark){{:root{{{variables(1)}}}}}"
