"""The parts that pages are made of: templates, style sheets and scripts in the folder `page`, and the policy by which a
browser runs and loads nothing else."""

import base64
import hashlib
import json
import os

from drawing.lines import escaped

FOLDER = os.path.join(os.path.dirname(os.path.abspath(__file__)), "page")


def json_text(data):
    """Data as JSON that ends no element of HTML."""
    text = json.dumps(data, separators=(",", ":"))
    return text.replace("<", "\\u003c").replace(">", "\\u003e").replace("&", "\\u0026")


def part(name):
    """A part of the page."""
    with open(os.path.join(FOLDER, name), encoding="utf-8") as file:
        return file.read()


def digest(text):
    """What a policy allows a style sheet or a script by."""
    return "'sha256-" + base64.b64encode(hashlib.sha256(text.encode()).digest()).decode() + "'"


def filled(name, style, script, texts, parts):
    """A page from a template, with its policy. The texts are escaped, other parts are put in as they are."""
    policy = f"default-src 'none'; base-uri 'none'; form-action 'none'; style-src {digest(style)}"
    policy += f"; script-src {digest(script)}" if script else ""
    pieces = {"POLICY": policy, "STYLE": style, "SCRIPT": script, **parts}
    pieces.update({key: escaped(text, {'"': "&quot;"}) for key, text in texts.items()})
    out = []
    for piece in part(name).split("@@"):
        out.append(pieces[piece] if len(out) % 2 else piece)
    return "".join(out)
