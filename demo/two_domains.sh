# What the scripts of two domains have in common beside domain.sh: CORP trusts a domain ROAM with the controller RDC,
# the user sam and a member server HALL; and CORP has a second member server FILE2. It is read by `.`, behind domain.sh.

# where CORP's table has ROAM's controller, where it listens behind a proxy, and where a second member server listens
trust_port=$(free_port $((member_port + 1)))
behind_port=$(free_port $((trust_port + 1)))
second_port=$(free_port $((behind_port + 1)))

other=
other_boot=0
second=
logons=0

for file in sam.hash trust.secret back.secret HALL.secret FILE2.secret; do digits 16 > "$folder/$file"; done
for machine in other second; do head -c 32 /dev/urandom > "$folder/$machine.seed"; done

cat >> "$folder/accounts.toml" <<TABLE

[[machine]]
name = "FILE2\$"
kind = "workstation"
hash = "$(cat "$folder/FILE2.secret")"

[[trust]]
domain = "ROAM"
hash = "$(cat "$folder/trust.secret")"
address = "127.0.0.1:$trust_port"
TABLE
cat > "$folder/roam.toml" <<TABLE
domain = "ROAM"
sid = "S-1-5-21-4-5-6"

[[user]]
name = "sam"
rid = 1001
hash = "$(cat "$folder/sam.hash")"

[[machine]]
name = "HALL\$"
kind = "workstation"
hash = "$(cat "$folder/HALL.secret")"

[[machine]]
name = "CORP\$"
kind = "trust"
hash = "$(cat "$folder/trust.secret")"
controllers = ["PDC"]
TABLE

# kills these processes, and waits until they are gone
end() {
    for process in "$@"; do
        kill -KILL "$process" 2>/dev/null
        wait "$process" 2>/dev/null
    done
}

# starts ROAM's controller at the PORT, with the next number of the boot, and waits until it listens
start_other() {
    other_boot=$((other_boot + 1))
    "$bin/nt_controller" serve --listen "127.0.0.1:$1" --name RDC --table "$folder/roam.toml" \
        --seed "$folder/other.seed" --boot $other_boot > "$folder/other.out" 2> "$folder/other.err" &
    other=$!
    silent="$silent $other"
    wait_for $other "$1" || { echo "ROAM's nt_controller doesn't listen"; cat "$folder/other.err"; exit 1; }
}

# starts the controller and the member server of CORP, each with the next number of the boot
start_corp() {
    controller_boot=$((controller_boot + 1))
    member_boot=$((member_boot + 1))
    start_controller
    start_member
}

# starts a second member server, and waits until it listens: COMPUTER DOMAIN CONTROLLER_PORT
start_second() {
    "$bin/nt_member" serve --listen "127.0.0.1:$second_port" --computer "$1" --domain "$2" \
        --secret "$folder/$1.secret" --controller "127.0.0.1:$3" --seed "$folder/second.seed" \
        --boot "$member_boot" > "$folder/second.out" 2> "$folder/second.err" &
    second=$!
    silent="$silent $second"
    wait_for $second "$second_port" || { echo "nt_member doesn't listen"; cat "$folder/second.err"; exit 1; }
}

# starts a peer at $trust_port, and waits until it listens: FILE WORD..
start_peer() {
    file=$1
    shift
    python3 "$(dirname "$0")/../peers/$file" "$trust_port" "$@" > "$folder/peer.out" 2>&1 &
    peer=$!
    silent="$silent $peer"
    wait_for $peer "$trust_port" || { echo "$file doesn't listen"; cat "$folder/peer.out"; exit 1; }
}

# whether a logon ends with that status: WHAT WANTED PORT DOMAIN USER FILE
logs_on() {
    logons=$((logons + 1))
    log_on_at "$3" "$4" "$5" "$folder/$6" $logons "$folder/logon.out"
    found=$?
    echo "$1, $5 of $4 ends with status $found"
    [ $found -eq "$2" ] || { failed=1; cat "$folder/logon.out"; }
}

# whether a server has printed these lines, and no others: WHAT FILE LINE..
printed() {
    what=$1
    file=$2
    shift 2
    printf '%s\n' "$@" > "$folder/wanted"
    cmp -s "$folder/wanted" "$folder/$file.out" && return 0
    echo "$what $file has printed:"
    cat "$folder/$file.out"
    failed=1
}
