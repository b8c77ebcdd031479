"""Reads a log of SARIF 2.1.0, tells what its schema asks for that is not there, and prints a line for each result."""

import json
import sys

# By the schema: the keys that an object must have, and those that lrcheck writes beside them.
OBJECTS = {
    "log": ({"version", "runs"}, {"$schema"}),
    "run": ({"tool"}, {"results", "columnKind"}),
    "tool": ({"driver"}, set()),
    "driver": ({"name"}, {"version", "rules"}),
    "rule": ({"id"}, {"shortDescription", "fullDescription", "help"}),
    "message": ({"text"}, set()),
    "result": ({"message"}, {"ruleId", "level", "locations", "relatedLocations"}),
    "location": (set(), {"physicalLocation", "message"}),
    "physicalLocation": ({"artifactLocation"}, {"region"}),
    "artifactLocation": (set(), {"uri"}),
    "region": (set(), {"startLine", "startColumn", "endLine", "endColumn"}),
}
LISTS = {"runs": "run", "rules": "rule", "results": "result", "locations": "location", "relatedLocations": "location"}
PARTS = {"tool", "driver", "message", "physicalLocation", "artifactLocation", "region"}
TEXTS = {"shortDescription", "fullDescription", "help"}


def wrong(kind, it, path):
    needed, known = OBJECTS[kind]
    for key in sorted(needed - it.keys()):
        yield f"{path} lacks {key}"
    for key, value in it.items():
        if key not in needed | known:
            yield f"{path} has {key}"
        elif key in LISTS:
            if key not in ("runs", "rules") and any(one in value[:k] for k, one in enumerate(value)):
                yield f"{path}.{key} has something twice"
            for k, one in enumerate(value):
                yield from wrong(LISTS[key], one, f"{path}.{key}[{k}]")
        elif key in PARTS | TEXTS:
            yield from wrong("message" if key in TEXTS else key, value, f"{path}.{key}")
    if kind == "region" and not (1 <= it["startLine"] <= it["endLine"] and min(it["startColumn"], it["endColumn"]) >= 1):
        yield f"{path} has no such place"


def place(location):
    physical = location["physicalLocation"]
    at = physical.get("region")
    return physical["artifactLocation"]["uri"] + (":{startLine}:{startColumn}-{endLine}:{endColumn}".format(**at) if at else "")


log = json.load(sys.stdin)
print(*wrong("log", log, "log"), sep="\n", end="")
assert log["version"] == "2.1.0" and "2.1.0" in log["$schema"] and len(log["runs"]) == 1
run = log["runs"][0]
assert run["columnKind"] == "utf16CodeUnits"
rules = [rule["id"] for rule in run["tool"]["driver"]["rules"] if TEXTS <= rule.keys()]
assert len({*rules}) == len(rules)
for result in run["results"]:
    assert result["ruleId"] in rules and result["level"] in ("none", "note", "warning", "error")
    print(place(result["locations"][0]), result["level"], result["ruleId"], result["message"]["text"])
    for related in result["relatedLocations"]:
        print("   ", place(related), related.get("message", {}).get("text", ""))
