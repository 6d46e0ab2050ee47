#!/bin/bash
# Becomes a desk that serves, and passes on its lines, except those of successful requests, with priorities for the
# journal.
#     serve.sh PROGRAM WORD..
# 503 and any other 5xx is an error; a connection without a complete reply (`fault`) is a warning.
# If RULES and STATE are set, it first writes the rules of the file RULES to STATE/rules.json, for the page.
if [ -n "${STATE-}" ] && ! "$(dirname "$0")/../../bin/write-rules" "$RULES" "$STATE"; then
    # The page then says that it cannot see the rules, instead of showing old ones.
    rm -f "$STATE/rules.json"
    echo "<3>serve.sh: $STATE/rules.json is not written" >&2
fi
exec "$@" > >(exec sed -u -E -e '/^2[0-9][0-9]$/d' -e '/^batch 0$/d' -e 's/^5[0-9][0-9]$/<3>&/' -e 's/^fault$/<4>&/')
