# What the scripts of this folder have in common: a domain of a controller PDC, a member server FILE1, a workstation WS1
# and a user ann on the loopback address, in a folder of its own, on two free ports. It is read by `.`, and $bin names
# the folder of the three programs. All that is started is stopped when the script ends.

folder=$(mktemp -d) || exit 1
controller=
member=
silent=
failed=0

finish() {
    for process in $silent $member $controller; do
        kill "$process" 2>/dev/null
        # one that was stopped ends once it goes on
        kill -CONT "$process" 2>/dev/null
    done
    wait 2>/dev/null
    rm -rf "$folder"
}
trap finish EXIT
trap 'exit 1' HUP INT TERM

# random bytes, as hex digits
digits() { od -An -v -N "$1" -tx1 /dev/urandom | tr -d ' \n'; }

# whether somebody listens at the port
listens() { grep -qi ":$(printf %04x "$1") 00000000:0000 0A" /proc/net/tcp; }

# tries the command every tenth of a second until it succeeds, 10 seconds at most
soon() {
    tries=100
    while [ $tries -gt 0 ]; do
        "$@" && return 0
        sleep 0.1
        tries=$((tries - 1))
    done
    return 1
}

# whether the server PROCESS has ended or listens at the PORT
has_begun() { ! kill -0 "$1" 2>/dev/null || listens "$2"; }

# waits until the server PROCESS listens at the PORT
wait_for() { soon has_begun "$1" "$2" && kill -0 "$1" 2>/dev/null; }

# how many links from this machine are open at the port
links_at() { grep -ci "0100007F:$(printf %04x "$1") 0100007F:[0-9a-f]* 01" /proc/net/tcp; }

# whether more links than so many are open at the port: PORT COUNT
has_more_links() { [ "$(links_at "$1")" -gt "$2" ]; }

# opens a link to the port on which nothing is sent but the front of a unit, for two minutes at most, and waits until it
# is open
keep_silent() {
    before=$(links_at "$1")
    bash -c 'exec 3<> "/dev/tcp/127.0.0.1/$0" && printf "\005\000\013" >&3 && exec sleep 120' "$1" &
    silent="$silent $!"
    soon has_more_links "$1" "$before"
}

# shows a file's lines behind a name
show() { sed "s/^/$1  /" "$2"; }

# whether a file has that line: FILE LINE
has() {
    grep -qx -e "$2" "$1" && return 0
    echo "missing: $2"
    failed=1
}

# a port that nobody listens at, from this one on
free_port() {
    port=$1
    while listens "$port"; do port=$((port + 1)); done
    echo "$port"
}

# below the ports that Linux gives to sockets that dial (from 32768 on), so that none of these is in the way
controller_port=$(free_port $((20000 + $$ % 12000)))
member_port=$(free_port $((controller_port + 1)))

# the number of the boot that a controller is started with; and of a member server the port at which it asks its
# controller, the file of its secrets, its number of the boot, and further words
controller_boot=1
asked_port=$controller_port
member_secrets=$folder/file1.secret
member_boot=1
member_words=

# what each machine keeps
hash=$(digits 16)
secret=$(digits 16)
station_secret=$(digits 16)
printf %s "$hash" > "$folder/ann.hash"
digits 16 > "$folder/wrong.hash"
printf %s "$secret" > "$folder/file1.secret"
printf %s "$station_secret" > "$folder/ws1.secret"
for machine in controller member client station; do
    head -c 32 /dev/urandom > "$folder/$machine.seed"
done
cat > "$folder/accounts.toml" <<TABLE
domain = "CORP"
sid = "S-1-5-21-1-2-3"

[[user]]
name = "ann"
rid = 1001
hash = "$hash"

[[machine]]
name = "FILE1\$"
kind = "workstation"
hash = "$secret"

[[machine]]
name = "WS1\$"
kind = "workstation"
hash = "$station_secret"
TABLE

# starts the controller, with these words beside the usual ones, and waits until it listens
start_controller() {
    "$bin/nt_controller" serve --listen "127.0.0.1:$controller_port" --name PDC --table "$folder/accounts.toml" \
        --seed "$folder/controller.seed" --boot "$controller_boot" "$@" > "$folder/controller.out" 2> "$folder/controller.err" &
    controller=$!
    wait_for $controller "$controller_port" || { echo "nt_controller doesn't listen"; cat "$folder/controller.err"; exit 1; }
}

# starts the member server, with so many descriptors at most where a number is given, and waits until it listens
start_member() {
    (
        [ $# -eq 0 ] || ulimit -n "$1" || exit 1
        exec "$bin/nt_member" serve --listen "127.0.0.1:$member_port" --computer FILE1 --domain CORP \
            --secret "$member_secrets" --controller "127.0.0.1:$asked_port" --seed "$folder/member.seed" \
            --boot "$member_boot" $member_words
    ) > "$folder/member.out" 2> "$folder/member.err" &
    member=$!
    wait_for $member "$member_port" || { echo "nt_member doesn't listen"; cat "$folder/member.err"; exit 1; }
}

# logs a user on with the hash in a file: PORT DOMAIN USER FILE BOOT OUTPUT. Gives the status, 124 where it lasts more
# than 30 seconds
log_on_at() {
    timeout 30 "$bin/nt_logon" logon --server "127.0.0.1:$1" --domain "$2" --user "$3" --workstation WS \
        --hash "$4" --level privacy --auth v2 --echo 16 --seed "$folder/client.seed" --boot "$5" > "$6" 2>&1
}

# logs ann on: FILE BOOT OUTPUT
log_on() { log_on_at "$member_port" CORP ann "$@"; }

# logs ann on at the workstation WS1 and off again: PORT FILE BOOT OUTPUT. Gives the status, 124 where it lasts more
# than 30 seconds
log_on_and_off() {
    timeout 30 "$bin/nt_logon" station --controller "127.0.0.1:$1" --computer WS1 --secret "$folder/ws1.secret" \
        --domain CORP --user ann --hash "$2" --seed "$folder/station.seed" --boot "$3" > "$4" 2>&1
}
