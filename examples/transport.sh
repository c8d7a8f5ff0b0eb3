#!/bin/sh
# A whole transport with curl, against a desk that serves on a port of this machine:
#
#     ./desk serve --db warehouse.db --port 8080 --connections 1000 &
#     examples/transport.sh 8080
#
# A person sets up the warehouse, registers a load and gives it a job; the states are what the vehicle's gateway would post.
set -eu
port=${1:-8080}
case $port in
    --help | -h)
        sed -n -e '/^set /q' -e '2,$s/^# \{0,1\}//p' "$0"
        exit
        ;;
    *[!0-9]*)
        echo "transport.sh: $port is no port: write examples/transport.sh 8080" >&2
        exit 2
        ;;
esac
desk=http://127.0.0.1:$port

call() { # METHOD PATH [BODY]
    printf '%s %s\n' "$1" "$2"
    if [ $# -gt 2 ]; then
        curl -sS -X "$1" --data-binary "$3" "$desk$2"
    else
        curl -sS -X "$1" "$desk$2"
    fi
    printf '\n'
}

# NUMBER ORDER UPDATE NODE SEQUENCE STATUSES
state() {
    call POST /uagv/v2/KIT/0001/state "{\"headerId\":$1,\"timestamp\":\"2023-11-14T22:13:19.50Z\",\"version\":\"2.0.0\",\
\"manufacturer\":\"KIT\",\"serialNumber\":\"0001\",\"orderId\":\"$2\",\"orderUpdateId\":$3,\"lastNodeId\":\"$4\",\
\"lastNodeSequenceId\":$5,\"driving\":false,\"nodeStates\":[],\"edgeStates\":[],\"actionStates\":[$6],\
\"batteryState\":{\"batteryCharge\":80,\"charging\":false},\"operatingMode\":\"AUTOMATIC\",\"errors\":[],\
\"safetyState\":{\"eStop\":\"NONE\",\"fieldViolation\":false}}"
}

call PUT /layout 'kind,id,from,to
node,N1,,
node,N2,,
node,N3,,
edge,E12,N1,N2
edge,E21,N2,N1
edge,E23,N2,N3
edge,E32,N3,N2
station,A,N1,1
station,B,N3,1
'
call POST /vehicles '{"manufacturer":"KIT","serialNumber":"0001","node":"N1"}'
state 1 '' 0 N1 0 ''
call POST /loads '{"load":"L1","station":"A"}'
call POST /jobs '{"job":"J1","load":"L1","to":"B"}'
# The vehicle may go to N2.
call POST /orders '{"order":"O1","job":"J1","manufacturer":"KIT","serialNumber":"0001","edges":1}'
call GET /uagv/v2/KIT/0001/order
call GET /report/holds
# It has picked the load up, so L1 is on it.
state 2 O1 0 N1 0 '{"actionId":"O1.0","actionStatus":"FINISHED"}'
call GET /loads/L1
# It may go on to N3, and reports that it has come there and put the load down.
call POST /vehicles/KIT/0001/advance '{"order":"O1","orderUpdateId":1,"edges":1}'
state 3 O1 1 N3 4 '{"actionId":"O1.0","actionStatus":"FINISHED"},{"actionId":"O1.1","actionStatus":"FINISHED"}'
call GET /loads/L1
call GET /report/holds
call GET /report/stock
