#!/bin/sh
# Holds docs/session.schema.json against each example: one that is read has to pass; one that is refused for its shape has
# to fail, so for any fault but those of building, which no schema sees.
#
# usage: checks/schema.sh
#
# It takes Debian's python3-jsonschema, or a later one, and installs that where it is missing. Where it cannot, it says so and
# holds nothing.
set -eu
here=$(cd "$(dirname "$0")" && pwd)

has_validator() {
    python3 -c 'from jsonschema import Draft202012Validator' 2>/dev/null
}

has_validator || apt-get install -y python3-jsonschema >/dev/null 2>&1 || pip install jsonschema >/dev/null 2>&1 || true
if ! has_validator; then
    echo "schema.sh: python3-jsonschema is missing, and the schema is not checked" >&2
    exit 0
fi

python3 - "$here/../docs/session.schema.json" "$here/../examples" <<'PYTHON'
import glob, json, os, sys
from jsonschema import Draft202012Validator

schema = json.load(open(sys.argv[1]))
Draft202012Validator.check_schema(schema)
validator = Draft202012Validator(schema)
examples = sys.argv[2]
different = 0
for path in sorted(glob.glob(examples + "/*/session.json") + glob.glob(examples + "/*/*/session.json")):
    folder = os.path.dirname(path)
    name = os.path.relpath(folder, examples)
    refusal = ""
    if os.path.exists(folder + "/error"):
        refusal = open(folder + "/error").read().strip()
    fault = refusal.removeprefix("session refused: ") if refusal.startswith("session refused: ") else ""
    try:
        session = json.load(open(path))
    except ValueError:
        print(("same      " if fault == "1 NotJson" else "different "), name, "is not JSON")
        different += fault != "1 NotJson"
        continue
    found = sorted(validator.iter_errors(session), key=lambda error: error.json_path)
    by_shape = fault != "" and not fault.startswith("6 Build")
    if fault.startswith("6 Build"):
        print("unseen    ", name, fault)
    elif by_shape == bool(found):
        print("same      ", name, "; ".join(f"{e.json_path}: {e.message}" for e in found)[:160])
    else:
        print("different ", name, "; ".join(f"{e.json_path}: {e.message}" for e in found)[:300] or fault)
        different += 1
sys.exit(different != 0)
PYTHON
