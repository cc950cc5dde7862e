#!/bin/bash
# Tests the two scripts of docs/SCALE.md on this machine: filter.sbatch under Slurm and filter.py
# under dask.distributed, over sixteen files. Both must write what one run writes; with an empty and
# a damaged file, all other packets, and report both files with status 1. Both must report a refused
# expression. An output that is an input must be refused, an old part must not be joined, and a
# missing scheduler must give one message.
#
# usage: tools/try_scale.sh [PROGRAM]
#
# PROGRAM is the built capkit; without it, ./capkit builds it first. It needs Debian's packages slurm-wlm,
# munge and python3-distributed, starts both engines as the calling user in a scratch folder, and stops them at its end.

set -euo pipefail

root=$(CDPATH='' cd -- "$(dirname -- "$0")/.." && pwd -P)
expression='tcp port 80 or 443'
node=$(hostname -s)
user=$(id -un)

if [ $# -gt 0 ]; then
    program=$(realpath "$1")
else
    "$root/capkit" --help >/dev/null
    program=$(python3 "$root/tools/built.py")
fi

# Whoever runs it, munged wants a folder that nobody else may write to.
work=$(mktemp -dt capkit-scale-XXXXXX)
chmod 755 "$work"
jobs=()
# shellcheck disable=SC2317  # called at the end
stop() {
    status=$?
    [ "$status" = 0 ] || tail -n 5 "$work"/*.log >&2
    for job in "${jobs[@]}"; do
        kill "$job" 2>/dev/null || true
    done
    wait
    rm -rf "$work"
    exit "$status"
}
trap stop EXIT

# Starts a service; what it says goes to NAME.log.
start() {
    name=$1
    shift
    "$@" >"$work/$name.log" 2>&1 &
    jobs=("$!" "${jobs[@]}")
}

# Calls a command each fifth of a second until it succeeds, for at most 20 seconds.
wait_for() {
    for _ in $(seq 100); do
        if "$@" >/dev/null 2>&1; then
            return
        fi
        sleep 0.2
    done
    printf '%s: %s did not come about\n' "$0" "$*" >&2
    return 1
}

start_slurm() {
    dd if=/dev/urandom of="$work/munge.key" bs=128 count=1 status=none
    chmod 400 "$work/munge.key"
    start munged "$(PATH=$PATH:/usr/sbin command -v munged)" --foreground --force --key-file="$work/munge.key" \
        --socket="$work/munge.socket" --pid-file="$work/munged.pid" --seed-file="$work/munge.seed" --log-file=/dev/null
    wait_for test -S "$work/munge.socket"
    cat >"$work/slurm.conf" <<END
ClusterName=try
SlurmctldHost=$node(127.0.0.1)
SlurmctldPort=26817
SlurmdPort=26818
SlurmUser=$user
SlurmdUser=$user
AuthType=auth/munge
AuthInfo=socket=$work/munge.socket
StateSaveLocation=$work/state
SlurmdSpoolDir=$work/spool
SlurmctldPidFile=$work/slurmctld.pid
SlurmdPidFile=$work/slurmd.pid
ProctrackType=proctrack/linuxproc
TaskPlugin=task/none
JobAcctGatherType=jobacct_gather/none
SelectType=select/cons_tres
SelectTypeParameters=CR_CPU
SchedulerParameters=batch_sched_delay=0
SlurmdParameters=config_overrides
NodeName=$node NodeAddr=127.0.0.1 CPUs=$(nproc) RealMemory=1024
PartitionName=all Nodes=ALL Default=YES State=UP
END
    mkdir "$work/state" "$work/spool"
    export SLURM_CONF=$work/slurm.conf
    start slurmctld "$(PATH=$PATH:/usr/sbin command -v slurmctld)" -D -f "$SLURM_CONF"
    start slurmd "$(PATH=$PATH:/usr/sbin command -v slurmd)" -D -f "$SLURM_CONF"
    wait_for sh -c 'sinfo -h -o %t | grep -qx idle'
}

# The Python that has dask.distributed, which Debian's own has.
start_dask() {
    for python in python3 /usr/bin/python3 ''; do
        if "$python" -c 'import distributed' 2>/dev/null; then
            break
        fi
    done
    [ -n "$python" ] || { printf '%s: no python3 has dask.distributed\n' "$0" >&2 && return 1; }
    start scheduler dask-scheduler --host 127.0.0.1 --port 0 --no-dashboard --scheduler-file "$work/scheduler.json"
    wait_for test -s "$work/scheduler.json"
    for number in 1 2; do
        start "worker-$number" dask-worker --scheduler-file "$work/scheduler.json" --nthreads 1 --no-dashboard \
            --local-directory "$work/worker-$number"
    done
    scheduler=$(sed -n 's/.*"address": "\([^"]*\)".*/\1/p' "$work/scheduler.json" | head -n 1)
}

# Looks whether a command ends with a status, and keeps what it reports.
ends_with() { # STATUS COMMAND..
    result=0
    "${@:2}" 2>reported || result=$?
    if [ "$result" != "$1" ]; then
        cat reported >&2
        printf '%s: %s ended with status %s\n' "$0" "$2" "$result" >&2
        return 1
    fi
}

# Runs a job of Slurm over all parts, and joins what its tasks write.
by_slurm() { # STATUS EXPRESSION OUT
    rm -f part-*.match capkit-*.log
    ends_with "$1" sbatch --quiet --wait --array=0-15 "$root/examples/scale/filter.sbatch" "$2" part-*.pcap
    cat capkit-*.log >reported
    if [ "$1" -lt 2 ]; then
        capkit merge -a -F pcap -w "$3" part-*.match
    fi
}

by_dask() { # STATUS EXPRESSION OUT
    ends_with "$1" "$python" "$root/examples/scale/filter.py" "$scheduler" "$3" "$2" part-*.pcap
}

# Runs an engine over files that are whole, by an expression that is refused, and over an empty and a damaged file.
try_engine() { # COMMAND NAME
    cp whole/part-*.pcap .
    "$1" 0 "$expression" whole.pcap
    cmp whole.pcap one.pcap
    "$1" 2 'tcp port' none.pcap
    cp bad/part-*.pcap .
    "$1" 1 "$expression" bad.pcap
    cmp bad.pcap without.pcap
    grep -q 'part-05.pcap: offset 0: not a capture file' reported
    grep -q 'part-09.pcap: offset [0-9]*: too long' reported
    printf '%s: sixteen files, the same bytes as one run; with an empty and a damaged one, all other packets\n' "$2"
}

# Runs one task of filter.sbatch without Slurm.
task() { # NUMBER EXPRESSION FILE..
    SLURM_ARRAY_TASK_ID=$1 bash "$root/examples/scale/filter.sbatch" "${@:2}"
}

# An old .match is removed even if no new one is written; no output is an input, and no two outputs are the same file.
try_outputs_of_tasks() {
    cp whole/part-*.pcap .
    ends_with 0 task 1 tcp part-*.pcap
    test -s part-02.match
    mv part-02.pcap moved
    ends_with 1 task 0 udp part-02.pcap
    test ! -e part-02.match
    mv moved part-02.pcap
    ends_with 0 task 0 udp part-02.pcap
    ends_with 2 task 0 udp part-02.pcap part-02.match
    cp part-02.pcap part-02
    ends_with 2 task 0 udp part-02.pcap part-02
    test -z "$(find . -name '*.part')"
    printf 'filter.sbatch: no output is an input or an old one\n'
}

# A second run over all captures of the folder would read its own output.
try_outputs_of_dask() {
    cp part-01.pcap before
    ends_with 2 "$python" "$root/examples/scale/filter.py" "$scheduler" part-01.pcap tcp part-*.pcap
    cmp part-01.pcap before
    ends_with 1 timeout 60 "$python" "$root/examples/scale/filter.py" tcp://127.0.0.1:1 none.pcap tcp part-*.pcap
    test "$(cat reported)" = 'filter.py: tcp://127.0.0.1:1: no scheduler answers'
    test -z "$(find . -name '*.part')"
    printf 'filter.py: no output is an input; a scheduler that is not there is one message\n'
}

mkdir "$work/bin" "$work/run"
ln -s "$program" "$work/bin/capkit"
export PATH=$work/bin:$PATH
cd "$work/run"
python3 "$root/bench/make_capture.py" all.pcap 1600
mkdir whole bad
for part in $(seq -w 16); do
    last=$((10#$part * 100))
    capkit edit -r -F pcap all.pcap "whole/part-$part.pcap" $((last - 99))-$last
done
capkit print -w one.pcap --format pcap all.pcap "$expression"

# Part 5 is empty, and the captured length of packet 51 of part 9 is damaged.
: >bad/part-05.pcap
capkit edit -r -F pcap whole/part-09.pcap start.pcap 1-50
cp whole/part-09.pcap bad/
printf '\377\377\377\377' | dd of=bad/part-09.pcap bs=1 seek=$(($(wc -c <start.pcap) + 8)) conv=notrunc status=none
capkit edit all.pcap - 401-500 851-900 | capkit print -w without.pcap --format pcap - "$expression"

start_slurm
try_engine by_slurm "$(sinfo --version)"
try_outputs_of_tasks
start_dask
try_engine by_dask "dask.distributed $("$python" -c 'import distributed; print(distributed.__version__)')"
try_outputs_of_dask
