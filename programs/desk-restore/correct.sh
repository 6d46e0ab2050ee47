#!/bin/sh
# Corrects a desk by its text: writes a copy as text, edits that by sed, and has desk-restore replace the desk by one
# that is made from it. For root.
#     correct.sh [--refuse MARK SERIES] EXPRESSION..
# Refuse the file whose message you take out, or its inbox posts it again. Each EXPRESSION is one of sed. It shows the
# first 20 lines that change, and desk-restore asks before anything is refused or stopped. Then it writes down the
# correction, with the next number of each series, and takes a new copy.
# Status 1 if no line changes, else that of a command that failed: then the desk is in place if a line says so.
set -eu
# A terminal that hangs up does not end it.
trap '' HUP
desk=/var/lib/onixdesk/shop.db

complain() { echo "correct.sh: $*; the desk is as it was" >&2; exit 1; }

said=$* mark='' series=''
if [ "${1-}" = --refuse ]; then
    mark=$2 series=$3
    shift 3
fi
[ $# -gt 0 ] || complain "an EXPRESSION is missing"
for expression; do
    shift
    set -- "$@" -e "$expression"
done
work=$(mktemp -d /var/tmp/onixdesk.XXXXXX)
trap 'rm -rf "$work"' EXIT
cd "$work"
# First finishes what a killed run began.
[ ! -e "${desk%/*}/.${desk##*/}.work" ] || desk-restore --yes none || :
desk-copy "$desk" before
onixdesk --db "before/${desk##*/}" --existing export >before.csv
next=$(onixdesk --db "before/${desk##*/}" --existing gaps | sed -n 's/^gaps,\([^,]*\),.*,\(next=[0-9]*\),.*/\1 \2,/p')
sed "$@" before.csv >after.csv
diff before.csv after.csv >changes || [ $? -eq 1 ]
[ -s changes ] || complain "no line of its text changes"
grep '^[<>]' changes | head -n 20 | cut -c 1-200
echo "$(grep -c '^[<>]' changes) lines differ${mark:+; $mark of $series is refused after the yes}"
desk-restore ${mark:+--refuse "$mark" "$series"} --said "$(echo $next) $said" --text after.csv before || status=$?
systemctl start onixdesk-copy.service || status=${status:-$?}
exit "${status:-0}"
