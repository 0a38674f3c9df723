# shellcheck shell=bash disable=SC2154
# Shared by the scripts: commands that are missing, and what is proved and built, with its progress on standard error. Sourced, with root set.

job_program=$root/target/bin/measure
library=$root/target/staticlib/libboundary.a
mezhtolik=$root/rust/target/release/mezhtolik

# Whether all commands are there; says how to get the first that is not.
present() { # command ..
    local name how
    for name in "$@"; do
        command -v "$name" >/dev/null 2>&1 && continue
        case $name in
        rt) how="it comes with the Rattle kit; put the kit's bin folder on PATH" ;;
        cargo) how="install Rust 1.87 or later, from https://rustup.rs or your system's packages" ;;
        cc) how="install a C compiler, as gcc or clang" ;;
        g++) how="install a C++ compiler, as g++" ;;
        nm) how="install binutils" ;;
        python3) how="install Python 3" ;;
        esac
        echo "$name is missing: $how" >&2
        return 1
    done
}

# One line of progress: the same line again on a terminal, else a line of its own.
progress() { # text
    if [ -t 2 ]; then
        printf '\r\033[K%s' "${1:0:79}" >&2
    elif [ -n "$1" ]; then
        echo "$1" >&2
    fi
}

# What is left of a build that failed: the end of its log, without the crates that are well.
tell_failure() { # log
    progress ""
    grep -v ': ok$' "$1" | tail -n 20 >&2
    echo "the build failed; $1 has all of it" >&2
}

# Runs a step of a build in a folder of the repository. Its output goes to the log, and its end to standard error if it fails.
step() { # folder, command ..
    local folder=$1 log=$root/target/build.log
    shift
    (cd "$root/$folder" && "$@") </dev/null >"$log" 2>&1 && return
    tell_failure "$log"
    return 1
}

# The crates that a crate rests on, and the crate itself.
below() { # crate
    awk -v wanted="$1" '
        /^#/ || !sub(/:/, "") { next }
        { name[++count] = $1; needs[$1] = $0 }
        END {
            used[wanted] = 1
            for (n = count; n > 0; n--) {
                if (!(name[n] in used)) continue
                size = split(needs[name[n]], parts, " ")
                for (i = 2; i <= size; i++) used[parts[i]] = 1
            }
            for (n = 1; n <= count; n++) if (name[n] in used) print name[n]
        }' "$root/crates.txt"
}

# How many crates are checked side by side: one for each processor, as far as each has 3 GB of memory.
side_by_side() {
    local processors fits
    processors=$(nproc 2>/dev/null || echo 1)
    fits=$(awk '/^MemAvailable:/ { print int($2 / 3000000) }' /proc/meminfo 2>/dev/null)
    [ "${fits:-1}" -ge "$processors" ] || processors=${fits:-1}
    [ "$processors" -ge 1 ] || processors=1
    echo "$processors"
}

# Proves a crate and those that it rests on, and shows each that is done.
prove() { # crate
    local crate=$1 log=$root/target/build.log line checked=0 count
    count=$(below "$crate" | wc -l)
    progress "proving $count crates"
    (cd "$root/crates/$crate" && rt all check --jobs "$(side_by_side)") </dev/null 2>&1 | tee "$log" |
        while IFS= read -r line; do
            case $line in
            '== summary') ;;
            '== '*) checked=$((checked + 1)) && progress "$checked of $count checked: ${line#== }" ;;
            esac
        done
    if [ "${PIPESTATUS[0]}" -ne 0 ]; then
        tell_failure "$log"
        return 1
    fi
    progress ""
}

# Whether a product is missing, or one of its sources is newer than the beginning of its last build.
stale() { # product, source ..
    local product=$1
    shift
    [ -f "$product" ] && [ -f "$product.built" ] || return 0
    [ -n "$(find "$@" \( -name target -o -name out \) -prune -o -type f -newer "$product.built" -print -quit)" ]
}

# Makes a product by a command where it is stale.
make_product() { # product, sources as words, command ..
    local product=$1 sources=$2
    shift 2
    # shellcheck disable=SC2086
    (cd "$root" && stale "$product" $sources) || return 0
    mkdir -p "$root/target" "$(dirname "$product")"
    touch "$product.begun"
    "$@" && mv "$product.begun" "$product.built"
}

# Where rt leaves the job program, by rt run and by rt ci.
take_program() { mkdir -p "$(dirname "$job_program")" && cp "$root/crates/measure/out/measure" "$job_program"; }
take_library() { cp "$root/crates/boundary_c/out/libboundary_c.a" "$library"; }

prove_program() { present rt && prove measure && step crates/measure rt run -- data/job.txt && take_program; }
prove_library() { present rt && prove boundary_c && step crates/boundary_c rt lib && take_library; }

compile_command() {
    present cargo cc && build_library || return 1
    progress "compiling the command"
    step . cargo build --quiet --release --manifest-path rust/Cargo.toml --package command || return 1
    progress ""
}

build_program() { make_product "$job_program" "crates crates.txt" prove_program; }
build_library() { make_product "$library" "crates crates.txt" prove_library; }
build_command() { make_product "$mezhtolik" "crates crates.txt rust" compile_command; }
