"""What the published schema of SARIF 2.1.0 demands of the parts that mkcheck-report and
mkcheck-audit write.

It is written out by hand: for each kind of object its properties with their kinds, and which of
them are required. Objects may have no other properties than those that the schema names; of these,
only the ones that the report uses stand here, so a property that isn't here is told as wrong too.
"""

from __future__ import annotations

LEVELS = ("none", "note", "warning", "error")
# A kind is the name of an object, `[kind]` for a list, `{kind}` for an object of any names, a type,
# or a tuple of the values that are allowed.
OBJECTS: dict[str, tuple[dict[str, object], tuple[str, ...]]] = {
    "sarifLog": (
        {"$schema": str, "version": ("2.1.0",), "runs": ["run"]},
        ("version", "runs"),
    ),
    "run": (
        {
            "tool": "tool",
            "columnKind": ("utf16CodeUnits", "unicodeCodePoints"),
            "originalUriBaseIds": {"": "artifactLocation"},
            "invocations": ["invocation"],
            "results": ["result"],
            "properties": {"": int},
        },
        ("tool",),
    ),
    "tool": ({"driver": "toolComponent"}, ("driver",)),
    "toolComponent": (
        {
            "name": str,
            "fullName": str,
            "version": str,
            "semanticVersion": str,
            "informationUri": str,
            "rules": ["reportingDescriptor"],
        },
        ("name",),
    ),
    "reportingDescriptor": (
        {
            "id": str,
            "shortDescription": "multiformatMessageString",
            "help": "multiformatMessageString",
            "helpUri": str,
            "defaultConfiguration": "reportingConfiguration",
        },
        ("id",),
    ),
    "multiformatMessageString": ({"text": str}, ("text",)),
    "reportingConfiguration": ({"level": LEVELS}, ()),
    "invocation": (
        {
            "executionSuccessful": bool,
            "exitCode": int,
            "toolExecutionNotifications": ["notification"],
        },
        ("executionSuccessful",),
    ),
    "notification": ({"message": "message", "level": LEVELS}, ("message",)),
    "suppression": ({"kind": ("inSource", "external"), "justification": str}, ("kind",)),
    "result": (
        {
            "ruleId": str,
            "ruleIndex": int,
            "level": LEVELS,
            "message": "message",
            "locations": ["location"],
            "relatedLocations": ["location"],
            "partialFingerprints": {"": str},
            "fixes": ["fix"],
            "suppressions": ["suppression"],
            # Each object may have a bag of properties; here its values are of one type.
            "properties": {"": str},
        },
        ("message",),
    ),
    # A message has a text or an id; the report writes texts.
    "message": ({"text": str}, ("text",)),
    "location": ({"physicalLocation": "physicalLocation", "message": "message"}, ()),
    # A physical location has an address or the location of an artifact.
    "physicalLocation": (
        {"artifactLocation": "artifactLocation", "region": "region"},
        ("artifactLocation",),
    ),
    "artifactLocation": ({"uri": str, "uriBaseId": str, "description": "message"}, ()),
    "region": ({"startLine": int, "startColumn": int, "endLine": int, "endColumn": int}, ()),
    "fix": (
        {"description": "message", "artifactChanges": ["artifactChange"]},
        ("artifactChanges",),
    ),
    "artifactChange": (
        {"artifactLocation": "artifactLocation", "replacements": ["replacement"]},
        ("artifactLocation", "replacements"),
    ),
    "replacement": (
        {"deletedRegion": "region", "insertedContent": "artifactContent"},
        ("deletedRegion",),
    ),
    "artifactContent": ({"text": str}, ()),
}
# Lists that may not be empty, and lists whose items all differ.
FILLED = ("artifactChanges", "replacements")
DISTINCT = ("relatedLocations", "fixes", "rules", "suppressions")


def wrong_parts(value: object, kind: object = "sarifLog", place: str = "log") -> list[str]:
    """What of a value isn't as the schema has it."""
    if isinstance(kind, str):
        return wrong_object(value, kind, place)
    if isinstance(kind, tuple):
        return [] if value in kind else [f"{place} is {value!r}"]
    if isinstance(kind, list):
        if not isinstance(value, list):
            return [f"{place} is no list"]
        found = [
            wrong
            for number, one in enumerate(value)
            for wrong in wrong_parts(one, kind[0], f"{place}[{number}]")
        ]
        name = place.rpartition(".")[2]
        if name in FILLED and not value:
            found.append(f"{place} is empty")
        if name in DISTINCT and any(one in value[:number] for number, one in enumerate(value)):
            found.append(f"{place} has an item twice")
        return found
    if isinstance(kind, dict):
        if not isinstance(value, dict):
            return [f"{place} is no object"]
        return [
            wrong
            for name, one in value.items()
            for wrong in wrong_parts(one, kind[""], f"{place}.{name}")
        ]
    assert isinstance(kind, type)
    fits = isinstance(value, kind) and (kind is bool or not isinstance(value, bool))
    return [] if fits else [f"{place} is no {kind.__name__}"]


def wrong_object(value: object, kind: str, place: str) -> list[str]:
    """What of an object isn't as the schema has it."""
    properties, required = OBJECTS[kind]
    if not isinstance(value, dict):
        return [f"{place} is no object"]
    found = [f"{place} has no {name}" for name in required if name not in value]
    for name, one in value.items():
        if name not in properties:
            found.append(f"{place} has {name}")
        else:
            found += wrong_parts(one, properties[name], f"{place}.{name}")
    if kind == "region":
        found += [f"{place}.{name} is below 1" for name, one in value.items() if one < 1]
    if kind == "result" and value.get("ruleIndex", 0) < 0:
        found.append(f"{place}.ruleIndex is below 0")
    return found
