"""The part of the published schema of SARIF 2.1.0 that our files use: which fields each object must have and may have."""
import re

TEXT, COUNT, TRUTH, ANY = "text", "count", "truth", "any"
# Of each object the fields that it must have, and of each field that it may have what stands there; `[x]` is a list of x, and
# `{x}` an object whose fields, whatever their names, are x.
OBJECTS = {
    "log": ("version runs", {"$schema": TEXT, "version": TEXT, "runs": "[run]"}),
    "run": ("tool", {"tool": "tool", "invocations": "[invocation]", "results": "[result]"}),
    "tool": ("driver", {"driver": "driver"}),
    "driver": ("name", {"name": TEXT, "rules": "[rule]", "notifications": "[rule]"}),
    "rule": ("id", {"id": TEXT, "name": TEXT, "shortDescription": "string", "fullDescription": "string", "help": "string",
                    "defaultConfiguration": "configuration"}),
    "configuration": ("", {"level": "level"}),
    "string": ("text", {"text": TEXT}),
    "message": ("text", {"text": TEXT}),
    "invocation": ("executionSuccessful", {"executionSuccessful": TRUTH, "toolExecutionNotifications": "[notification]"}),
    "notification": ("message", {"message": "message", "level": "level", "descriptor": "reference", "locations": "[location]"}),
    "reference": ("id", {"id": TEXT}),
    "result": ("message", {"ruleId": TEXT, "ruleIndex": COUNT, "level": "level", "message": "message", "locations": "[location]",
                           "relatedLocations": "[location]", "partialFingerprints": "{text}", "codeFlows": "[codeFlow]"}),
    "codeFlow": ("threadFlows", {"threadFlows": "[threadFlow]"}),
    "threadFlow": ("locations", {"locations": "[flowPlace]"}),
    "flowPlace": ("", {"location": "location", "nestingLevel": COUNT, "importance": "importance", "kinds": "[text]", "state": "{string}"}),
    "location": ("", {"message": "message", "logicalLocations": "[logicalLocation]", "physicalLocation": "physicalLocation", "properties": "{any}"}),
    "logicalLocation": ("", {"fullyQualifiedName": TEXT, "kind": TEXT}),
    "physicalLocation": ("artifactLocation", {"artifactLocation": "artifactLocation", "region": "region"}),
    "artifactLocation": ("", {"uri": "uri"}),
    "region": ("", {"startLine": COUNT, "byteOffset": COUNT, "byteLength": COUNT}),
}
WORDS = {"level": {"none", "note", "warning", "error"}, "importance": {"important", "essential", "unimportant"}}
URI = re.compile(r"(?:[A-Za-z0-9._~!$&'()*+,;=:@/-]|%[0-9A-Fa-f]{2})+")
# lists that may not be empty
FILLED = {"threadFlows", "locations"}
PLAIN = {
    ANY: lambda value: True,
    TEXT: lambda value: isinstance(value, str),
    TRUTH: lambda value: isinstance(value, bool),
    COUNT: lambda value: isinstance(value, int) and not isinstance(value, bool) and value >= 0,
    "uri": lambda value: isinstance(value, str) and bool(URI.fullmatch(value)),
}


def faults(log):
    """Where a file breaks the schema, or names a rule that it does not describe."""
    found = list(differences("log", log, "log"))
    if found:
        return found
    if log["version"] != "2.1.0":
        found.append("another version")
    for run in log["runs"]:
        rules = [rule["id"] for rule in run["tool"]["driver"]["rules"]]
        notes = {rule["id"] for rule in run["tool"]["driver"]["notifications"]}
        found += [f"rule {result['ruleId']}" for result in run["results"] if rules[result["ruleIndex"]] != result["ruleId"]]
        said = [note for invocation in run["invocations"] for note in invocation.get("toolExecutionNotifications", [])]
        found += [f"notification {note['descriptor']['id']}" for note in said if note["descriptor"]["id"] not in notes]
    return found


def differences(kind, value, place):
    if kind in PLAIN:
        yield from [] if PLAIN[kind](value) else [f"{place} is no {kind}"]
    elif kind in WORDS:
        yield from [] if value in WORDS[kind] else [f"{place} is {value!r}"]
    elif kind.startswith("["):
        yield from in_list(kind[1:-1], value, place)
    elif not isinstance(value, dict):
        yield f"{place} is no object"
    elif kind.startswith("{"):
        for name, part in value.items():
            yield from differences(kind[1:-1], part, f"{place}.{name}")
    else:
        yield from in_object(kind, value, place)


def in_list(kind, value, place):
    if not isinstance(value, list):
        yield f"{place} is no list"
    elif not value and place.rpartition(".")[2] in FILLED:
        yield f"{place} is empty"
    else:
        for number, part in enumerate(value):
            yield from differences(kind, part, f"{place}.{number}")


def in_object(kind, value, place):
    needed, fields = OBJECTS[kind]
    yield from (f"{place} has no {name}" for name in needed.split() if name not in value)
    for name, part in value.items():
        if name in fields:
            yield from differences(fields[name], part, f"{place}.{name}")
        else:
            yield f"{place} has a {name}"
