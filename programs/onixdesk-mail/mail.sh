#!/bin/sh
# Mails the journal of onixdesk's units since the last time, if one of them has failed or has written an error.
#     mail.sh ADDRESS FOLDER [SETTINGS INBOX]
# FOLDER keeps how far the journal was read; only this script's user has it. It needs the right to read the journal, and
# a mail server's sendmail. Each Monday INBOX, onixdesk-inbox, reports on each series of SETTINGS.
# Status 0, also with nothing to mail; 1 if a mail could not be sent: then the next one has its lines too.
set -u
address=$1 folder=$2 settings_folder=${3-/etc/onixdesk/inbox} inbox=${4-/usr/share/onixdesk/bin/onixdesk-inbox}
PATH=$PATH:/usr/sbin
most=100

complain() { echo "mail.sh: $*, so nobody is mailed" >&2; exit 1; }

# The units' journal after the last line that was read, which is removed here: if that line is not among those that are
# asked for, --after-cursor of systemd 252 leaves out the next one instead.
journal() {
    if [ -e "$folder/read" ]; then
        set -- --cursor="$(sed -n 1p "$folder/read")" "$@"
    else
        set -- --since=-1h "$@"
    fi
    journalctl --quiet --no-pager --output=short --unit=onixdesk.service --unit='onixdesk-inbox@*.service' \
        --unit='onixdesk-fetch@*.service' --unit=onixdesk-copy.service --unit=onixdesk-follow.service \
        --unit=onixdesk-prices.service "$@" >"$folder/journal" || return
    [ -e "$folder/read" ] && [ "$(sed -n 1p "$folder/journal")" = "$(sed -n 2p "$folder/read")" ] &&
        sed -i 1d "$folder/journal"
    cat "$folder/journal"
}

# Remembers how far the journal was read: a cursor and its line.
keep() {
    [ -s "$folder/lines" ] || return 0
    printf '%s\n' "$cursor" "$(tail -n 1 "$folder/lines")" >"$folder/read.new"
    mv "$folder/read.new" "$folder/read"
}

# The first lines of a file, and how many more there are. The programs cut texts from others; only an unexpected line is
# longer.
some_of() {
    head -n $most "$1" | cut -c 1-2000
    count=$(wc -l <"$1")
    [ "$count" -le $most ] || echo "and $((count - most)) more"
}

send() {
    {
        printf 'To: %s\nSubject: onixdesk: %s\n' "$address" "$1"
        printf 'MIME-Version: 1.0\nContent-Type: text/plain; charset=UTF-8\nContent-Transfer-Encoding: 8bit\n\n'
        cat "$folder/text"
    } >"$folder/mail"
    sendmail -i -t <"$folder/mail" || complain "sendmail ends with status $?"
}

# The report of each inbox.
week() {
    for settings in "$settings_folder"/*.conf; do
        series=$(basename "$settings" .conf)
        if [ "$series" = example ] || [ ! -e "$settings" ]; then continue; fi
        echo "$series"
        "$inbox" report "$series" 2>&1 | head -n 40 | cut -c 1-2000 | sed 's/^/    /'
    done
}

# Sends a mail each Monday in any case, so that a silent mail server is noticed.
mail_week() {
    [ "$(date +%u)" = 1 ] && [ "$(cat "$folder/monday" 2>/dev/null)" != "$(date +%F)" ] || return 0
    week >"$folder/text"
    send "how the inboxes stand"
    date +%F >"$folder/monday"
}

[ -n "$address" ] || complain "no ADDRESS is set in /etc/onixdesk/mail.conf"
command -v sendmail >/dev/null || complain "no sendmail is here (apt-get install default-mta)"
# An error that is written between the two is mailed twice; none is lost.
journal --show-cursor >"$folder/told" || complain "the journal cannot be read"
cursor=$(sed -n 's/^-- cursor: //p' "$folder/told" | tail -n 1)
sed '/^-- cursor: /d' "$folder/told" >"$folder/lines"
journal --priority=err >"$folder/told" || complain "the journal cannot be read"
grep -E ': (Failed with result|Failed to start|Start request repeated) ' "$folder/lines" >>"$folder/told"
awk '!said[$0]++' "$folder/told" >"$folder/errors"
if [ -s "$folder/errors" ]; then
    { some_of "$folder/errors"; printf '\nAll that was said:\n\n'; some_of "$folder/lines"; } >"$folder/text"
    send "$(wc -l <"$folder/errors") lines to look at"
fi
keep
mail_week
rm -f "$folder/told" "$folder/errors" "$folder/lines" "$folder/text" "$folder/mail" "$folder/journal"
