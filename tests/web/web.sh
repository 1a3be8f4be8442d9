#!/usr/bin/env bash
# Serves the page of web/ by nginx with the lines of web/nginx.conf, plays a player's months on it in a headless
# Chromium, and asks the lines themselves by curl. It takes about a minute once the program is built, and ends with
# 'web: all as expected'. With '--shots FOLDER' it puts pictures of the page there. Where a program that it needs is
# missing, it says so and ends with status 77.
set -u
here=$(cd "$(dirname "$0")/../.." && pwd)
PATH=$PATH:/usr/sbin
shots=()

if [ "${1:-}" = --shots ] && [ "$#" = 2 ]; then
  mkdir -p "$2"
  shots=("$(cd "$2" && pwd)")
elif [ "$#" -gt 0 ]; then
  echo 'use: tests/web/web.sh [--shots FOLDER]' >&2
  exit 2
fi

# package PROGRAM: the package of Debian that has it
package() {
  if [ "$1" = chromedriver ]; then echo chromium-driver; else echo "$1"; fi
}

missing=() packages=()
for program in nginx chromium chromedriver curl python3; do
  command -v "$program" >/dev/null && continue
  missing+=("$program")
  packages+=("$(package "$program")")
done
if [ "${#missing[@]}" -gt 0 ]; then
  echo "web: missing: ${missing[*]}. On Debian: apt-get install ${packages[*]}"
  echo 'web: skipped, the page was not tested'
  exit 77
fi

work=$(mktemp -d)
trap 'rm -rf "$work"' EXIT
python3 -B "$here/tests/web/play.py" "$work" "${shots[@]}" || exit 1
echo 'web: all as expected'
