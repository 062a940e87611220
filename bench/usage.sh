#!/usr/bin/env bash
# Read by the other scripts. `takes LEAST MOST WORDS..` prints the comment at the head of the script for -h and --help, and
# ends with status 2 after another option, and after fewer or more words than the script takes.
takes() {
  local least=$1 most=$2
  shift 2
  case ${1:-} in
    -h | --help) told && exit ;;
    -*) printf '%s: no such option: %s\n' "$0" "$1" >&2 && exit 2 ;;
  esac
  [ $# -ge "$least" ] && [ $# -le "$most" ] || { told >&2 && exit 2; }
}

# The comment at the head of the script that runs.
told() { sed -n '2,/^[^#]/s/^# \{0,1\}//p' "$0"; }
