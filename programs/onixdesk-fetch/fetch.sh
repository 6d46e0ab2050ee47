#!/bin/bash
# Fetches the files of a wholesaler's server into the folder of its inbox, by rclone:
#     fetch.sh SERIES FOLDER
# FROM, NAMES, VERB, CERTIFICATE and UNVERIFIED are in the environment, rclone's settings in $CREDENTIALS_DIRECTORY/conf
# (INBOX.md); $STATE_DIRECTORY belongs to this series alone. Status 0, or 1 if something did not come.
set -uo pipefail
export LC_ALL=C
series=$1 folder=$2 state=$STATE_DIRECTORY
# rclone writes into `new`; files in `whole` are complete and synced.
new=$state/new whole=$state/whole
# Settings of rclone come from its file alone.
unset "${!RCLONE_@}"
[ -z "${CERTIFICATE:-}" ] || export SSL_CERT_FILE=$CERTIFICATE SSL_CERT_DIR=/nonexistent

say() { echo "<$1>journalctl -n 50 -u onixdesk-fetch@$series; $2" >&2; }

# A text from others as one word, cut.
quoted() { local text=${1//[^ -~]/?}; text=${text:0:300}; echo "${text@Q}"; }

# Ends with a notice; after two hours of these with an error, which is mailed, and then daily.
fail() {
    local now since told
    now=$(date +%s)
    [ -s "$state/failing" ] || echo "$now" >"$state/failing"
    since=$(cat "$state/failing") told=$(cat "$state/told" 2>/dev/null)
    if [ $((now - ${since:-$now})) -ge 7200 ] && [ $((now - ${told:-0})) -ge 86400 ]; then
        echo "$now" >"$state/told"
        say 3 "fetching fails since $(date -d "@$since" '+%F %H:%M'); $1"
    else
        say 5 "fetching fails; $1"
    fi
    exit 1
}

call() { rclone --config "$CREDENTIALS_DIRECTORY/conf" --retries 1 --low-level-retries 3 "$@" 2>>"$state/log"; }

# Reports each of rclone's errors in a line, and the last line as the reason.
fail_by_rclone() {
    local line
    while IFS= read -r line; do say 5 "$(quoted "${line:20}")"; done < <(grep ERROR "$state/log" | head -n 50)
    fail "$1; $(quoted "$(tail -n 1 "$state/log" | cut -c 21-)")"
}

# Refuses an unverified server, unless the settings allow it.
check_server() {
    local shown remote=${FROM%%:*}
    [[ ${FROM:-} =~ ^[A-Za-z0-9_-]+: ]] || fail "FROM is REMOTE:FOLDER, with a REMOTE of $series.conf"
    [[ ${VERB:-} =~ ^(copy|move)$ ]] || fail "VERB is copy or move"
    shown=$(call config show "$remote") || fail_by_rclone "rclone cannot read $series.conf"
    has() { grep -qxE "$1" <<<"$shown"; }
    if has 'type = sftp'; then
        has 'known_hosts_file = .+' || fail "known_hosts_file is missing in $series.conf: any host would be trusted"
    elif has 'type = ftp'; then
        { has '(tls|explicit_tls) = true' && ! has 'no_check_certificate = .*'; } || unverified
    elif has 'type = http'; then
        has 'url = https://.*' || unverified
    else
        fail "the type of $remote in $series.conf is none of sftp, ftp, http"
    fi
}

unverified() {
    [ "${UNVERIFIED:-}" = yes ] || fail "nobody verifies that server: TLS, or UNVERIFIED=yes in $series.env"
}

# The age, in seconds, of the moment 30 days before that time.
age_of() { local now; now=$(date +%s); echo $((30 * 86400 + (now > $1 ? now - $1 : 0))); }

# What to ask for: at first, or from a server without times, all; else what is not much older than the last success.
choose() {
    local times
    asked=(--max-depth 1 --include "/${NAMES:-*}" --ignore-case --max-size 4G)
    times=$(call lsf --files-only --format t "${asked[@]}" "$FROM") || fail_by_rclone "the server cannot be listed"
    [ -n "$times" ] || [ "$VERB" = move ] || fail "it has no file of NAMES: a wrong folder, or a page that asks who is there"
    asked+=(--min-age 1m --transfers 1 --check-first --order-by "modtime,ascending")
    if grep -q '^19[67]' <<<"$times"; then
        asked+=(--ignore-times --local-no-set-modtime)
    elif [ "$VERB" = copy ]; then
        asked+=(--compare-dest "$folder")
        [ ! -s "$state/succeeded" ] || asked+=(--max-age "$(age_of "$(cat "$state/succeeded")")s")
    fi
}

# Fetches into `new`, which becomes `whole`. It removes only files from the server that are synced here and unchanged.
fetch() {
    local status
    rm -rf "$new"
    mkdir "$new"
    call copy "${asked[@]}" "$FROM" "$new"
    status=$?
    # If killed, rclone leaves a partial file; otherwise it removes that itself.
    [ $status -lt 128 ] || fail "rclone was killed"
    { sync --file-system "$new" && mv -T "$new" "$whole" && sync --file-system "$state"; } || fail "the disk takes nothing"
    call lsf --files-only "$whole" >"$state/came" || fail "the disk takes nothing"
    if [ "$VERB" = move ] && [ -s "$state/came" ]; then
        call move --immutable --files-from-raw "$state/came" "$FROM" "$whole" || status=1
        [ -z "$(call lsf --files-from-raw "$state/came" "$FROM")" ] || status=1
    fi
    return $status
}

# Moves complete files into the folder, in the order of their times.
deliver() {
    local name
    [ -d "$whole" ] || return 0
    exec 9<"$folder" && flock 9 || return
    while IFS= read -r -d '' name; do
        put "$name" || return
    done < <(find "$whole" -type f -printf '%T@ %f\0' | sort -zn | cut -zd ' ' -f 2-)
    exec 9<&-
    rm -r "$whole"
}

# Overwrites no file that waits in the folder: that one gets the name that the inbox gives what it takes, which
# FULL_NAMES matches as before.
put() {
    local to=$folder/$1 part=$folder/.fetched.part
    rm -rf -- "$part"
    cp --preserve=timestamps -- "$whole/$1" "$part" && sync -- "$part" || return
    # From a server without times, the same bytes that come again mean nothing.
    if [[ "${asked[*]-}" = *--ignore-times* ]] && cmp -s -- "$to" "$part"; then
        rm -- "$part" "$whole/$1"
        return
    fi
    if [ -e "$to" ] && ! cmp -s -- "$to" "$part"; then
        mv -T -- "$to" "$folder/taken-$(sha256sum <"$to" | cut -c 1-12)-$(tail -c 200 <<<"$1")" || return
    fi
    mv -T -- "$part" "$to" && rm -- "$whole/$1"
}

began=$(date +%s)
: >"$state/log"
deliver || fail "the folder cannot be written to"
check_server
choose
fetch || status=$?
deliver || fail "the folder cannot be written to"
[ -z "${status-}" ] || fail_by_rclone "not all came, or it stays there: of a server that forbids removal VERB=copy, with LEAVE=yes"
echo "$began" >"$state/succeeded"
[ ! -e "$state/told" ] || say 3 "fetching is well again"
rm -f "$state/failing" "$state/told"
