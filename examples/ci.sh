#!/bin/sh
# Checks a design where changes come together: ci.sh FILE. Stores its certificate in kept.proof and the verdict in verdict.json,
# in the folder where it is typed, and prints the verdict with the signal, or the number and word of the rule, that it names.
# Needs python3. SECV may name another program than that of the checkout in which this script stands.
[ $# = 1 ] || { echo "usage: ci.sh FILE" >&2; exit 2; }
SECV=${SECV:-$(cd -P "$(dirname "$0")/.." && pwd)/secv}
"$SECV" check "$1" --proof kept.proof --budget 100000 --json >verdict.json
status=$?
case $status in 0 | 1 | 3)
  python3 -c '
import json
verdict = json.load(open("verdict.json"))
print(*(verdict[key] for key in ("verdict", "target", "rule") if key in verdict), *verdict.get("names", ()))' ;;
esac
exit $status
