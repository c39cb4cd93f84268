#!/bin/bash
# A client of gtrbacd in the shell: client.sh LINE.. sends each line to PORT (7743 where it is not
# set; 7753 and 7754 are those of viewers, where the server has them) and prints its reply. A line
# without words, or a comment, is answered by nothing and is not sent. Sessions stay open until their
# user closes them. It needs bash alone, which opens the connection itself.
set -eu
exec 3<>"/dev/tcp/127.0.0.1/${PORT:-7743}"
for line in "$@"; do
    if [[ "$line" =~ ^[[:space:]]*(#|$) || "$line" == *$'\n'* ]]; then
        printf 'client.sh: no line that is answered: %s\n' "$line" >&2
        exit 1
    fi
    printf '%s\n' "$line" >&3
    IFS= read -r -t 10 reply <&3
    printf '%s\n' "$reply"
done
