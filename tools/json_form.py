"""An explanation as JSON: whole numbers that may pass 2^53 are strings, so that no reader rounds them."""

import json

# Members whose whole numbers have no small limit, whatever they come to in a mesh.
LARGE = {"left", "right", "difference", "sum", "product", "spare", "W", "m", "width"}


def unrounded(value, name=None):
    """The same with these members as strings, at any depth."""
    if isinstance(value, dict):
        return {member: unrounded(part, member) for member, part in value.items()}
    if isinstance(value, (list, tuple)):
        return [unrounded(part) for part in value]
    return str(value) if name in LARGE else value


def json_text(told):
    return json.dumps(unrounded(told), indent=1)
