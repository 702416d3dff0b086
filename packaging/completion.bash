# Completion for tlbridge, tlbridge-model, tlexplain, tlexplain-model, tlbridge-compare, tlbridge-trace, tlbridge-verify and tlbridge-prove.
_tlbridge() {
    local word=${COMP_WORDS[COMP_CWORD]} before=${COMP_WORDS[COMP_CWORD - 1]} widths="1 2 4 8 16 32 64 128" words
    case $1 in
    *tlexplain) words="--lanes --html --json --times --in-order --only --from --to --source --channel --no-remarks --faults --help --version" ;;
    *tlexplain-model) words="--lanes --times --in-order --only --from --to --source --channel --no-remarks --help --version" ;;
    *tlbridge-compare)
        words="--ignore-unmasked --split --largest --level --write-trace --program --help"
        [ "$COMP_CWORD" -gt 2 ] || words=$widths
        ;;
    *tlbridge-trace)
        words="--all --json --level --link --client --manager --link-pattern --client-pattern --manager-pattern --field --struct --clock --reset --width
            --client-clock --client-reset --client-width --manager-clock --manager-reset --manager-width --trace --times --html --tlexplain --far
            --beats --compare --ignore-unmasked --program --unknown-zero --from --to --trace-version --no-count --quiet --help"
        ;;
    *tlbridge-verify)
        words="--top --client --manager --device --host --client-clock --client-reset --manager-clock --manager-reset --one-clock --tie --struct
            --seed --seeds --jobs --messages --level --largest --only --window --in-order --no-early --no-reuse --no-denied --no-blocking
            --no-reset --same-cycle --no-same-cycle --after-reset --withdraw --skew --no-skew --plusarg --rules-only --no-memory --may-withdraw
            --denied-is-corrupt --denied-alike --done-not-denied --reads-accepted --reads-no-later --reads-alike --corrupt-stays
            --copies-all --simulator --seconds --shrink-seconds --no-waves --out --junit --help"
        [ "$COMP_CWORD" -gt 1 ] || words="merge $words"
        [ "${COMP_WORDS[1]}" != merge ] || words="--json --junit --help"
        ;;
    *tlbridge-prove)
        words="--top --file-list --param --define --include --client --client-clock --client-reset --manager --manager-clock --manager-reset --tie
            --clocks --reset-cycles --cycles --unbounded --lemmas --seconds --only --level --largest --no-same-cycle-response --zero-lanes
            --forwards-offered --offered-rules --watched-source-only --later-resets --no-user-bits --within --assume --address-bits --source-bits --sink-bits --count-bits
            --jobs --out --sby --tcl --no-cache --keep-going --help"
        ;;
    *)
        words="run check --help --version"
        [ "${COMP_WORDS[1]}" != run ] || words="--sync --ring --turns --help"
        [ "${COMP_WORDS[1]}" != check ] || words="--help"
        ;;
    esac
    case $before in
    --ring | --turns | --from | --to | --source) words='' ;;
    --link | --client | --manager | --*-pattern | --field | --struct | --clock | --reset | --*-clock | --*-reset) words='' ;;
    --only)
        case $1 in
        *tlbridge-verify) words="get put partial" ;;
        *tlbridge-prove) words='' ;;
        *) words=problems ;;
        esac
        ;;
    --level) [[ $1 == *tlbridge-verify ]] && words="UL UH C" || words="ul uh c" ;;
    --clocks) words="1 2" ;;
    --simulator) words="auto icarus verilator" ;;
    --top | --tie | --seed | --seeds | --jobs | --messages | --window | --plusarg | --seconds | --shrink-seconds) words='' ;;
    --param | --define | --reset-cycles | --cycles | --within | --assume | --*-bits) words='' ;;
    --file-list | --include | --sby | --tcl) words='' ;;
    --out | --junit | --json) [[ $1 != *tlbridge-verify && $1 != *tlbridge-prove ]] || words='' ;;
    --channel) words="A B C D E" ;;
    --width | --*-width) words=$widths ;;
    --trace-version) words="1 2" ;;
    --largest) words="1 2 4 8 16 32 64 128 256 512 1024 2048 4096" ;;
    --program | --write-trace | --trace | --times | --tlexplain | --far | --beats) words='' ;;
    --html) [[ $1 != *tlbridge-trace ]] || words='' ;;
    esac
    mapfile -t COMPREPLY < <(compgen -W "$words" -- "$word")
    case $before in
    --ring | --turns | --from | --to | --source | --only | --channel | --level | --simulator | --clocks) ;;
    --top | --tie | --seed | --seeds | --jobs | --messages | --largest | --window | --plusarg | --seconds | --shrink-seconds) ;;
    --param | --define | --reset-cycles | --cycles | --within | --assume | --*-bits) ;;
    --link | --client | --manager | --*-pattern | --field | --struct | --clock | --reset | --*-clock | --*-reset) ;;
    --width | --*-width | --trace-version) ;;
    *) [[ $word == -* ]] || mapfile -t -O "${#COMPREPLY[@]}" COMPREPLY < <(compgen -f -- "$word") ;;
    esac
}
complete -o filenames -F _tlbridge tlbridge tlbridge-model tlexplain tlexplain-model tlbridge-compare tlbridge-trace tlbridge-verify tlbridge-prove
