# What trials/clients.sh and trials/inproc.sh begin with: they read it, and it is no trial of its own. It goes to the top of the
# repository, and makes a folder that is removed again, $folder; a trial sets bad=1 where something went wrong.
here=$(pwd)
cd "$(dirname "$0")/.."
root=$(pwd)
folder=$(mktemp -d)
trap 'rm -rf "$folder"' EXIT
bad=0

# whole PATH: the path, which may have been said from where the trial was started.
whole() {
    case $1 in
    /*) echo "$1" ;;
    *) echo "$here/$1" ;;
    esac
}

# programs PROGRAM..: ends the trial where one is not there.
programs() {
    for program; do
        [ -x "$program" ] || { echo "there is no $program: run rt ci, or rt run in its crate, first" >&2; exit 2; }
    done
}

# prints WHAT EXPECTED COMMAND..: whether a command prints what is expected.
prints() {
    what=$1
    expected=$2
    shift 2
    status=0
    "$@" > "$folder/said" || status=$?
    if [ "$status" = 0 ] && diff "$expected" "$folder/said"; then
        echo "$what prints what is expected"
    else
        echo "WRONG: $what prints something else, or ends with the status $status"
        bad=1
    fi
}

# try_parts ALL PART..: does these parts, which are functions of the trial; all of them if none is named.
try_parts() {
    all=$1
    shift
    [ $# -gt 0 ] || set -- $all
    for part; do
        case " $all " in
        *" $part "*) "$part" ;;
        *) echo "no such part: $part" >&2; exit 2 ;;
        esac
    done
    [ "$bad" = 0 ]
}
