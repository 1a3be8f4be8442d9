#!/usr/bin/env bash
# Runs all tests: the gate (rt ci), and then each script over the program that the gate built. Called as
#   tests/all.sh            for all of them; it needs the Rattle kit
#   tests/all.sh scripts    for the scripts alone, over the program that ./gm runs, without the kit
# It prints a line for each script, what a failed one printed, and last 'N passed, N failed, N skipped', the gate's own counted in. A script that
# lacks a tool is skipped, with a line that says how to get the tool; where CI is set, a skipped script counts as failed.
set -u
here=$(cd "$(dirname "$0")/.." && pwd)
cd "$here" || exit 1
# nginx and debootstrap are where a user's PATH may not lead.
PATH=$PATH:/usr/sbin:/sbin
log=$(mktemp)
trap 'rm -f "$log"' EXIT
passed=0 failed=0 skipped=0

# the package of Debian that has a tool, where its name is another
declare -A package=([cc]=gcc [chromedriver]=chromium-driver [xz]=xz-utils [node]=nodejs [tsc]=node-typescript
  [dovecot]=dovecot-imapd)

# the program that the gate built: the scripts try this one, and compare the release with it
built=()

# count_gate: runs the gate, shows what it prints and what it cost, and counts what its own last line counts
count_gate() {
  python3 -B tests/tools/gate_cost.py rt ci 2>&1 | tee "$log"
  if [[ $(grep -axE '[0-9]+ passed, [0-9]+ failed' "$log" | tail -n 1) =~ ([0-9]+)\ passed,\ ([0-9]+)\ failed ]]; then
    passed=$((passed + BASH_REMATCH[1])) failed=$((failed + BASH_REMATCH[2]))
    built=("$here/crates/atl_gm/out/atl_gm")
  else
    echo 'all: rt ci did not come to its end. It needs the Rattle kit; without it, call tests/all.sh scripts'
    failed=$((failed + 1))
  fi
}

# name_program: has all scripts run the program that the gate built, or else the one that ./gm finds
name_program() {
  ATL_GM=${built[0]:-$(./gm path)} && export ATL_GM || unset ATL_GM
}

# skip NAME REASON: counts a script that could not run
skip() {
  echo "skipped: $1: $2"
  if [ -n "${CI:-}" ]; then failed=$((failed + 1)); else skipped=$((skipped + 1)); fi
}

# try NAME TOOLS COMMAND..: runs a script that needs these tools, and counts it. Status 77 is a script that skipped itself.
try() {
  local name=$1 tools=$2 tool status began=$SECONDS
  shift 2
  for tool in $tools; do
    command -v "$tool" >/dev/null && continue
    skip "$name" "$tool is missing: apt-get install ${package[$tool]:-$tool}"
    return
  done
  "$@" >"$log" 2>&1 </dev/null
  status=$?
  case $status in
    0) echo "passed: $name, $((SECONDS - began)) s" && passed=$((passed + 1)) ;;
    77) skip "$name" "$(tail -n 1 "$log")" ;;
    *)
      echo "failed: $name, status $status, $((SECONDS - began)) s; it printed:"
      tail -n 100 "$log"
      failed=$((failed + 1))
      ;;
  esac
}

# is_same_crowd: whether the cases that tests/model/crowd.py makes are those that are stored
is_same_crowd() {
  tests/model/crowd.py | cmp - crates/atl_phase_tests/data/crowd.txt
}

[ "${1:-}" = scripts ] || count_gate
name_program

# program: its release, its package, its command line, HTTP
try release python3 tests/program/release.py "${built[@]}"
try start 'python3 git xz' tests/program/start.py
try package python3 tests/program/package.py
try program python3 python3 -B tests/program/program.py
try worlds python3 python3 -B tests/program/worlds.py
try by_hand python3 python3 -B tests/program/by_hand.py
try limits python3 python3 -B tests/program/limits.py
try large_month python3 python3 -B tests/program/large_month.py
try upgrade python3 python3 -B tests/program/upgrade.py
try http 'curl python3' python3 -B tests/program/month_by_http.py
try slow python3 python3 -B tests/program/slow.py
try given_up 'python3 strace' python3 -B tests/program/given_up.py
try grown python3 python3 -B tests/program/grown.py

try gate_cost python3 python3 -B -m unittest tests/tools/test_gate_cost.py

# pages: what they print, name and count
try first_hour '' examples/first_hour.sh
try pages 'sqlite3 curl python3' tests/pages/pages.sh
try links python3 tests/pages/links.py
try rules_index python3 tests/pages/rules_index.py
try believe python3 tests/pages/believe.py --check
try sentences python3 tests/pages/sentences.py

# model: the phases by a second program, and scripted players
try plain python3 tests/model/plain.py crates/atl_phase_tests/data/*.txt
try island '' cmp worlds/isle.toml crates/atl_phase_tests/data/island.toml
try crowd python3 is_same_crowd
try simulate python3 tests/model/simulate.py

# faults: kills, power cuts, refused memory, files that can't be opened
try killed 'sqlite3 strace' tests/faults/killed.sh 40
try cuts 'strace python3' tests/faults/cuts.py
try memory 'sqlite3 curl cc python3' tests/faults/memory.sh 11 997
try opening 'python3 strace' python3 -B tests/faults/opening.py

# the types of what is in Python, and the office
try python_types mypy mypy --strict office tests/office tests/program tests/pages tests/tools
try office python3 python3 -B -m unittest discover -s tests/office -t .
try office_year python3 tests/office/year_by_mail.py
try office_stopped 'python3 openssl strace' tests/office/stopped.py
try office_served python3 tests/office/served.py

# the page for players
try page_modules node node --test tests/web/unit/*.test.js
try page_types tsc tsc -p tsconfig.json
try page_judge 'node python3' node tests/web/judge_beside_gm.js 600
try web 'curl python3 nginx chromium chromedriver' tests/web/web.sh

echo "$passed passed, $failed failed, $skipped skipped"
[ "$failed" = 0 ]
