#!/bin/sh
# Tells the dispatcher by the board, as an ERP does, when a job is due, its priority, and its place
# in a truck. It needs a user of nginx who is a dispatcher, whose password curl asks for. What is
# left out is none. The answer has "done", or "fault" where it was no command; each is recorded.
#
#     examples/urgency.sh https://desk.example erp J1 2026-12-24T08:00:00Z 2 T7 3
set -eu
site=${1:---help}
case $site in
    --help | -h)
        sed -n -e '/^set /q' -e '2,$s/^# \{0,1\}//p' "$0"
        exit
        ;;
    http://* | https://*) ;;
    *)
        echo "urgency.sh: $site is no address: write examples/urgency.sh https://desk.example" >&2
        exit 2
        ;;
esac
if [ $# -lt 3 ]; then
    echo 'urgency.sh: a user and a job are missing' >&2
    exit 2
fi
user=$2 job=$3 due=${4-} priority=${5-} truck=${6-} place=${7-}

# The token holds until the board is restarted; then commands are answered by 403.
token=$(curl -fsS --user "$user" "$site/board/api/token" | sed 's/.*"token": *"\([^"]*\)".*/\1/')
values=$(printf '"job":"%s","due":"%s","priority":"%s","truck":"%s","place":"%s"' \
    "$job" "$due" "$priority" "$truck" "$place")
curl -fsS --user "$user" -H "X-Board-Token: $token" -H "Origin: $site" \
    -d "{\"command\":\"urgency\",\"values\":{$values}}" "$site/board/do"
