#!/bin/bash
# A client of `crawlgate serve`, for scripts. It needs bash (for /dev/tcp), head and sleep; `fetch` needs curl. In place
# of a port it takes the path of a socket, which has a / in it; there `run` and `seal` need nc too (of OpenBSD).
#
# usage: crawlgate.sh HTTP_PORT fetch TOKEN URL
#        crawlgate.sh PORT run TOKEN URL COMMAND ..
#        crawlgate.sh PORT seal
#
# `fetch` has the gate fetch a page, by curl, at the port of --http. It writes the body, and to standard error for each
# hop what Proxy-Status says of it, as in docs/FORMATS.md:
#
#   crawlgate.sh 8380 fetch foobot https://a.example/x
#   received-status=200; details="65536 norule"
#
# curl follows at most five redirects, each back to the gate and under a permit of its own. A page that is longer than
# the gate reads is not written.
#
# `run` and `seal` are for the port of --port. `run` asks for a permit, has the robots.txt fetched if none is in force,
# starts the fetch, runs the command, which fetches the page, and ends the fetch:
#
#   crawlgate.sh 8300 run foobot http://a.example/ curl --globoff --silent --user-agent foobot '{}'
#
# Each word of the command that is {}, or the URL as it was given, becomes the URL as the gate writes it, which is what it
# has decided; CRAWLGATE_URL has it too. The command fetches that and nothing else: it follows no redirect (curl does
# so only with --location), and sends the token as User-Agent.
#
# curl takes [..] and {..} of a URL for patterns, and fetches other pages than the one that was decided, unless it has
# --globoff (-g). Without it a URL that has one of these characters is refused before a permit is asked for. A script of yours
# that runs curl needs --globoff too: what is in a script is not looked at.
#
# `seal` writes the history since the last seal, which nobody else keeps; nothing, where there is none:
#
#   crawlgate.sh 8300 seal > "segments/$(date -u +%Y%m%dT%H%M%SZ)"
#
# The status is 0 for a page or a segment, or that of the command; 1 if the page is denied, refused or can't be had, and
# standard error says why; 2 for arguments that are not understood. What a session of `run` was granted goes back when
# it ends, however that is; the server ends one that sends no line for 300 seconds, or what its --patience says, so a
# command may not take longer.
set -u
LC_ALL=C

fail() {
    echo "crawlgate.sh: $1" >&2
    exit "${2:-1}"
}

# Reads a line of a reply.
receive() {
    IFS= read -r reply <&3 || fail "the connection ended"
}

# Sends a line, and reads the first line of its reply.
say() {
    printf '%s\n' "$*" >&4 || fail "the connection ended"
    receive
}

# Says a line whose reply must begin with this word.
expect() {
    local word=$1
    shift
    say "$@"
    [ "${reply%% *}" = "$word" ] || fail "$reply"
}

# Has a robots.txt fetched, or waits until another session has had it fetched.
inform() {
    say REFRESH "$1"
    case $reply in
    'TAKEN '*) return ;;
    'ERR inflight') ;;
    *) fail "$reply" ;;
    esac
    while expect STATE STATE "$1" && [ "${reply##* }" = fetching ]; do
        sleep 0.1
    done
}

# Writes a URL as the target of a request: four characters that none may have stand escaped, as in the URL Standard.
target() {
    local path=${url%%\?*} query
    query=${url#"$path"}
    path=${path//</%3C} path=${path//>/%3E} path=${path//\`/%60}
    query=${query//</%3C} query=${query//>/%3E} query=${query//\"/%22}
    echo "$path$query"
}

# The gate fetches the page, and what a redirect leads to.
fetch() {
    local where=http://127.0.0.1:$place heads told by=()
    command -v curl > /dev/null || fail "there is no curl"
    case $place in */*) where=http://localhost by=(--unix-socket "$place") ;; esac
    heads=$(mktemp) || fail "no file can be made"
    # shellcheck disable=SC2064
    trap "rm -f '$heads'" EXIT
    curl --disable --globoff --path-as-is --noproxy '*' --silent --show-error --location --max-redirs 5 "${by[@]}" \
        --header "Crawlgate-Token: $token" --dump-header "$heads" "$where/$(target)" || fail "no page"
    told=$(sed -n 's/\r$//; s/^proxy-status: crawlgate; //p' "$heads")
    [ "$told" ] || fail "no answer of a gate"
    echo "$told" >&2
    [[ ${told##*$'\n'} = received-status=* ]]
}

# Returns whether curl with these options takes [..] and {..} of a URL for patterns. It says yes where it can't tell: an option
# after most long ones may be that one's value.
reads_patterns() {
    local word flags='[0-9aBfgGiIjJklLMnNOpqRsSvZ#]' valued='[AbcCdDeEFhHKmoPQrtTuUwxXyYz]' is_value='' is_off=''
    for word; do
        # (behind --next the options begin anew)
        if [[ $word = --no-g* || $word = --nex* || $word =~ ^-${flags}*: ]]; then
            return 0
        fi
        if [ "$is_value" ]; then
            is_value=
            continue
        fi
        [[ $word != --globoff && ! $word =~ ^-${flags}*g ]] || is_off=yes
        [[ ! $word =~ ^-${flags}*${valued}$ ]] || is_value=yes
        case $word in
        --globoff | --silent | --show-error | --fail | --fail-with-body | --compressed | --include | --verbose | --ipv[46]) ;;
        --*) is_value=yes ;;
        esac
    done
    [ ! "$is_off" ]
}

# Refuses a URL that has patterns, where the command is curl, or a program that runs it as `timeout 20 curl` does.
refuse_patterns() {
    while [ $# -gt 0 ]; do
        case $1 in
        curl | */curl)
            shift
            ! reads_patterns "$@" || fail "curl reads patterns in $written: put --globoff right behind curl"
            ;;
        *) shift ;;
        esac
    done
}

# The command fetches the page.
run() {
    local status word written command=()
    expect URL URL "$url"
    written=${reply#URL }
    case $written in *[][{}]*) refuse_patterns "$@" ;; esac
    for word; do
        case $word in '{}' | "$url") word=$written ;; esac
        command+=("$word")
    done
    say ASK "$token" "$written"
    case $reply in
    'NO '*' unknown' | 'NO '*' expired')
        reply=${reply#NO }
        inform "${reply% *}"
        say ASK "$token" "$written"
        ;;
    esac
    [ "${reply%% *}" = PERMIT ] || fail "$reply"
    number=${reply#PERMIT }
    expect GO START "$number" "$token" "$written"
    # (the command has no part in the connection: it ends with this script)
    CRAWLGATE_URL=$written "${command[@]}" 3>&- 4>&-
    status=$?
    expect DONE DONE "$number"
    return "$status"
}

# The gate hands out its history.
seal() {
    expect SEALED SEAL
    head -n "${reply#SEALED }" <&3
    # where the text was cut the connection has ended
    expect BYE QUIT
}

[ $# -ge 4 ] || [ "$# ${2-}" = "2 seal" ] ||
    fail "usage: crawlgate.sh HTTP_PORT fetch TOKEN URL, or PORT run TOKEN URL COMMAND .., or PORT seal" 2
place=$1 action=$2 token=${3-none} url=${4-none}
shift $(($# < 4 ? $# : 4))
case $place in */*) ;; *[!0-9]* | '') fail "no port, and no path: $place" 2 ;; esac
# Another octet would end the word, or the line.
case $token in *[!!-~]* | '') fail "no token: $token" 2 ;; esac
case $url in *[!!-~]* | '') fail "no URL: $url" 2 ;; esac
case $action in
fetch) [ $# = 0 ] || fail "fetch takes a token and a URL" 2 ;;
run) [ $# -gt 0 ] || fail "run takes a token, a URL and a command" 2 ;;
seal) [ "$token $url" = "none none" ] || fail "seal takes nothing" 2 ;;
*) fail "neither fetch, run nor seal: $action" 2 ;;
esac
case $action$place in
fetch*) ;;
*/*)
    command -v nc > /dev/null || fail "there is no nc for a socket"
    coproc nc -N -U "$place"
    exec 3<&"${COPROC[0]}" 4>&"${COPROC[1]}"
    ;;
*) exec 3<>"/dev/tcp/127.0.0.1/$place" 4>&3 || fail "no connection" ;;
esac
"$action" "$@"
